"""A page in headless Chromium: it asks for the twenty results of a deal over a WebSocket and shows them. It stands in the
document that the browser prints at the end; the same page sends its text back, for the count of events."""
import html
import http.server
import json
import queue
import re
import shutil
import subprocess
import sys
import tempfile
import threading
from client import CLOSING, STOP, Frames, Server, check, recorded

PAGE = """<!DOCTYPE html>
<html><body><pre id="told"></pre><table id="results"></table><script>
const DEAL = %s;
const told = document.getElementById("told");
const say = text => { told.textContent += text + "\\n"; };
const socket = new WebSocket("ws://127.0.0.1:%d/");
let job = 0, fetches = 0;
const fetchJob = () => { fetches += 1; socket.send(JSON.stringify({do: "fetch", job})); };
const show = results => {
  const hands = ["N", "E", "S", "W"], strains = ["S", "H", "D", "C", "NT"];
  const rows = results.map((row, strain) => "<tr><th>" + strains[strain] + "</th>" + row.map(tricks => "<td>" + tricks + "</td>").join("") + "</tr>");
  document.getElementById("results").innerHTML = "<tr><th></th>" + hands.map(hand => "<th>" + hand + "</th>").join("") + "</tr>" + rows.join("");
};
socket.onopen = () => socket.send(JSON.stringify({do: "table", deal: DEAL}));
socket.onmessage = message => {
  const reply = JSON.parse(message.data);
  if (job === 0) { job = reply.job; fetchJob(); }
  else if (reply.fault) { say("stop " + message.data); socket.close(1000, "bye"); }
  else if (reply.state === "done") { show(reply.table); say("fetches " + fetches); socket.send('{"do":"stop"}'); }
  else { setTimeout(fetchJob, 20); }
};
socket.onclose = close => {
  say("close " + close.code + " " + close.wasClean);
  fetch("/", {method: "POST", body: told.textContent + document.getElementById("results").outerHTML});
};
</script></body></html>
"""


class Site(http.server.BaseHTTPRequestHandler):
    page, told = "", queue.Queue()

    def do_GET(self):
        self.send_response(200 if self.path == "/" else 404)
        self.send_header("Content-Type", "text/html; charset=utf-8")
        self.end_headers()
        self.wfile.write(self.page.encode() if self.path == "/" else b"")

    def do_POST(self):
        self.told.put(self.rfile.read(int(self.headers["Content-Length"])).decode())
        self.send_response(204)
        self.end_headers()

    def log_message(self, *_):
        pass


def browse(browser, address):
    """What the page sent back at its end."""
    with tempfile.TemporaryDirectory(ignore_cleanup_errors=True) as profile:
        command = [browser, "--headless=new", "--no-sandbox", "--disable-gpu", "--disable-dev-shm-usage", "--no-first-run", f"--user-data-dir={profile}", address]
        process = subprocess.Popen(command, stdout=subprocess.DEVNULL, stderr=subprocess.DEVNULL)
        try:
            return Site.told.get(timeout=120)
        except queue.Empty:
            sys.exit("cases/server: the page told nothing within 120 seconds")
        finally:
            process.terminate()
            process.wait()


browser = shutil.which("chromium") or shutil.which("chromium-browser")
if not browser:
    sys.exit("cases/server: the package chromium is missing")
request, expected = recorded("tables", 1)[0]
server = Server("--websocket", "--allow-stop", workers=2)
Site.page = PAGE % (json.dumps(json.loads(request)["deal"]), server.port)
site = http.server.ThreadingHTTPServer(("127.0.0.1", 0), Site)
threading.Thread(target=site.serve_forever, daemon=True).start()
told = browse(browser, f"http://127.0.0.1:{site.server_port}/")
found = re.match(r'fetches (\d+)\nstop \{"fault":3\}\nclose 1000 true\n(.*)', told, re.DOTALL)
if not found:
    sys.exit(f"cases/server: the page told {told!r}")
shown = [[int(cell) for cell in re.findall(r"<td>(\d+)</td>", row)] for row in re.findall(r"<tr>.*?</tr>", html.unescape(found.group(2)))[1:]]
check("the twenty results on the page", shown, json.loads(expected)["table"])
last = Frames(server.stream())
check("a stop", last.ask(STOP), CLOSING)
server.end_after(1 + 40 + int(found.group(1)) + 1)
print("page: headless Chromium shows the twenty results, and may not stop the program")
