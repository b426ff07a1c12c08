"""Certificates for a trial on one machine, made by `openssl`: an authority, the members', the gateways', and the programs'."""
import pathlib
import subprocess

# What a certificate is for. A member also shows its own to the other members, and to itself.
USES = {"member": "serverAuth,clientAuth", "gateway": "serverAuth", "program": "clientAuth"}
KEY = ["-newkey", "ec", "-pkeyopt", "ec_paramgen_curve:prime256v1", "-nodes", "-days", "2"]


class Certificates:
    """A folder with `ca.crt`, and NAME.crt and NAME.key for each use."""

    def __init__(self, folder: pathlib.Path):
        self.folder = folder
        folder.mkdir()
        self.ca = folder / "ca.crt"
        openssl("req", "-x509", *KEY, "-subj", "/CN=trial", "-keyout", folder / "ca.key", "-out", self.ca)
        for name, uses in USES.items():
            self.make(name, uses)

    def certificate(self, name: str) -> pathlib.Path:
        return self.folder / f"{name}.crt"

    def key(self, name: str) -> pathlib.Path:
        return self.folder / f"{name}.key"

    def make(self, name: str, uses: str) -> None:
        """Makes a certificate for this machine, signed by the authority."""
        request, extensions = self.folder / f"{name}.request", self.folder / f"{name}.extensions"
        extensions.write_text(f"subjectAltName=IP:127.0.0.1,DNS:localhost\nextendedKeyUsage={uses}\n")
        # Without a common name: etcd's gateway refuses programs whose certificate has one, so that nobody takes it for a user.
        openssl("req", "-new", *KEY[:-2], "-subj", f"/O={name}", "-keyout", self.key(name), "-out", request)
        openssl("x509", "-req", "-in", request, "-CA", self.ca, "-CAkey", self.folder / "ca.key", "-CAcreateserial",
                "-days", "2", "-extfile", extensions, "-out", self.certificate(name))


def openssl(*words: str | pathlib.Path) -> None:
    subprocess.run(["openssl", *words], check=True, capture_output=True)
