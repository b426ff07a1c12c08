//! The words of the command line, and runs without a server.

mod running;

use running::ended;

#[test]
fn no_server() {
    let (status, _, error) = ended(&["--port", "1"]);
    assert_eq!(status, Some(1));
    assert!(
        error.starts_with("load: client 1: it can't connect: "),
        "{error}"
    );
}

#[test]
fn refused_words() {
    for (words, expected) in [
        (&["--clients", "2"][..], "--port: it is missing"),
        (
            &["--port", "x"],
            "--port: wanted is a whole number from 1 to 65535",
        ),
        (&["--port"], "--port: its value is missing"),
        (&["--ports=1"], "--ports: no such option"),
        (
            &["--host", "0.0.0.0"],
            "--host: wanted is an address of this machine alone, as 127.0.0.1",
        ),
        (
            &["--seconds", "601"],
            "--seconds: wanted is a number of seconds, at most 600",
        ),
        (
            &["--seconds", "nan"],
            "--seconds: wanted is a number of seconds, at most 600",
        ),
        (&["--zipf", "-1"], "--zipf: wanted is a number from 0 to 10"),
        (
            &["--hot-spot", "10"],
            "--hot-spot: wanted is CUSTOMERS:PERCENT, at least 1 and at most 100",
        ),
        (
            &["--hot-spot", "201:5", "--customers=200", "--port=1"],
            "--hot-spot: it is larger than --customers",
        ),
        (
            &["--port", "1", "--flush=9", "--asks=8"],
            "--asks: wanted is as many as --flush, or more",
        ),
        (
            &["--port", "1", "--from", "4294967295"],
            "--from and --asks: the numbers of requests end at 4294967295",
        ),
        (
            &["--port", "1", "--protocol", "redis-lua"],
            "--protocol: wanted is frames, redis-incr, redis-lua with --script, or postgres",
        ),
    ] {
        let told = ended(words);
        assert_eq!(
            told,
            (Some(2), String::new(), format!("load: {expected}\n")),
            "{words:?}"
        );
    }
}

#[test]
fn an_opening_is_printed() {
    let told = ended(&["--opening", "--customers", "1"]);
    let text = "customer_0 100.00 100.00\nbegin\n";
    assert_eq!(told, (Some(0), text.to_owned(), String::new()));
}
