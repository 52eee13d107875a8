"""A yardstick for `cpi serve`: Python's http.server, with a fixed reply; it names its port in its first line."""

from __future__ import annotations

import http.server

BODY = b'{"items":[]}\n'


class Fixed(http.server.BaseHTTPRequestHandler):
    """Answers each message alike."""

    def do_GET(self) -> None:
        """Answers as an empty office does that is asked for its items."""
        self.send_response(200)
        self.send_header("Content-Type", "application/json")
        self.send_header("Content-Length", str(len(BODY)))
        self.end_headers()
        self.wfile.write(BODY)

    def log_message(self, format: str, *args: object) -> None:
        """Writes no log."""


if __name__ == "__main__":
    server = http.server.HTTPServer(("127.0.0.1", 0), Fixed)
    print(f"python: listening on 127.0.0.1:{server.server_port}", flush=True)
    server.serve_forever()
