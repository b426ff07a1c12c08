"""A page over HTTP that says how a program stands: `curl http://HOST:PORT`."""
import http.server
import json
import threading
from collections.abc import Callable


def serve(address: tuple[str, int] | None, look: Callable[[], dict]) -> None:
    """Serves what `look` answers as JSON, to whoever asks, from a thread of its own. Without an address it does nothing."""
    if address is None:
        return

    class Page(http.server.BaseHTTPRequestHandler):
        """The page."""

        timeout = 5

        def do_GET(self) -> None:
            page = json.dumps(look(), indent=1).encode() + b"\n"
            self.send_response(200)
            self.send_header("Content-Type", "application/json")
            self.send_header("Content-Length", f"{len(page)}")
            self.end_headers()
            self.wfile.write(page)

        def log_message(self, *_words: object) -> None:
            """Nothing is said of who asks."""

    server = http.server.ThreadingHTTPServer(address, Page)
    server.daemon_threads = True
    threading.Thread(target=server.serve_forever, daemon=True).start()
