"""The clients by which `.ci/desk` asks a desk."""
import http.client
import json
import os
import pathlib
import re
import shutil
import subprocess
import tempfile

REQUESTS = """import json, requests, sys
for method, url, body in json.load(sys.stdin):
    it = requests.request(method, url, data=body.encode() if body else None, timeout=12)
    print(json.dumps([it.status_code, it.reason, it.headers["Content-Type"], it.text]))
"""
FETCH = """async function all(calls) {
  const told = [];
  for (const [method, url, body] of calls) {
    const it = await fetch(url, method == "GET" ? {method} : {method, body});
    told.push([it.status, it.statusText, it.headers.get("Content-Type"), await it.text()]);
  }
  return told;
}
"""
PAGE = "<meta charset=utf-8><pre id=told></pre><script>%sall(%s).then(it => told.textContent = JSON.stringify(it));</script>"


# Each gives for each call the status, its phrase, the content type and the body of the answer.


def by_curl(calls):
    told = []
    for method, url, body in calls:
        words = ["curl", "-sS", "-i", "-m", "12", "-X", method, url, *(["--data-binary", body] if body else [])]
        head, text = subprocess.run(words, stdout=subprocess.PIPE, check=True, timeout=30).stdout.decode().split("\r\n\r\n", 1)
        _, status, phrase = head.split("\r\n")[0].split(" ", 2)
        told.append([int(status), phrase, re.search(r"Content-Type: (.*)\r", head)[1], text])
    return told


def by_http_client(calls):
    told = []
    for method, url, body in calls:
        host, path = re.match(r"http://([^/]*)(.*)", url).groups()
        one = http.client.HTTPConnection(host, timeout=12)
        one.request(method, path, body.encode() if body else None)
        got = one.getresponse()
        told.append([got.status, got.reason, got.headers["Content-Type"], got.read().decode()])
        one.close()
    return told


def by_requests(calls):
    done = subprocess.run(["/usr/bin/python3", "-c", REQUESTS], input=json.dumps(calls).encode(), stdout=subprocess.PIPE, check=True, timeout=30)
    return [json.loads(line) for line in done.stdout.decode().splitlines()]


def by_node(calls):
    script = f"{FETCH}all({json.dumps(calls)}).then(it => console.log(JSON.stringify(it)));"
    return json.loads(subprocess.run(["node", "-e", script], stdout=subprocess.PIPE, check=True, timeout=30).stdout)


def by_chromium(calls):
    with tempfile.TemporaryDirectory() as folder:
        page = pathlib.Path(folder) / "page.html"
        page.write_text(PAGE % (FETCH, json.dumps(calls)))
        words = [chromium(), "--headless", "--no-sandbox", "--disable-gpu", "--disable-web-security", f"--user-data-dir={folder}/profile",
                 "--virtual-time-budget=20000", "--dump-dom", page.as_uri()]
        shown = subprocess.run(words, stdout=subprocess.PIPE, stderr=subprocess.DEVNULL, check=True, timeout=30).stdout.decode()
    return json.loads(re.search(r"<pre[^>]*>(.*?)</pre>", shown, re.S)[1].replace("&quot;", '"').replace("&lt;", "<").replace("&amp;", "&"))


def chromium():
    return shutil.which("chromium") or shutil.which("chromium-browser") or shutil.which("google-chrome")


def has_requests():
    words = ["/usr/bin/python3", "-c", "import requests"]
    return os.access(words[0], os.X_OK) and subprocess.run(words, stderr=subprocess.DEVNULL, check=False).returncode == 0
