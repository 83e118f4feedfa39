"""What a browser without a window says of a page."""
import json
import os
import re
import shutil
import subprocess
from html import unescape

PROGRAM = next(filter(None, map(shutil.which, ("chromium", "chromium-browser", "google-chrome"))), None)
SECONDS = 600
# In front of all scripts of the page: what goes wrong is kept.
BEFORE = "<script>var faults = []; window.addEventListener('error', e => faults.push(e.message)); console.error = (...e) => faults.push(e.join(' '));</script>"
# Behind them: each column of each table is sorted both ways; each link to a place of the page leads to one that is seen.
BEHIND = """<script>
function key(row, column) {
  const cell = row.cells[column], text = cell.dataset.sort ?? cell.textContent.trim();
  return text !== '' && !isNaN(Number(text)) ? Number(text) : text;
}
function isOrdered(keys, sign) {
  return keys.every((k, i) => i === 0 || typeof k !== typeof keys[i - 1] || (sign > 0 ? keys[i - 1] <= k : keys[i - 1] >= k));
}
let columns = 0;
for (const table of document.querySelectorAll('table.sorts')) {
  const body = table.tBodies[0], count = body.rows.length;
  for (const head of table.tHead.rows[0].cells) {
    const ways = [];
    for (let k = 0; k < 2; k++) {
      head.click();
      ways.push(head.getAttribute('aria-sort'));
      const keys = Array.from(body.rows, row => key(row, head.cellIndex));
      if (!isOrdered(keys, ways[k] === 'ascending' ? 1 : -1)) faults.push(`${head.textContent} isn't sorted ${ways[k]}: ${keys}`);
    }
    if (ways[0] === ways[1] || body.rows.length !== count) faults.push(`${head.textContent}: ${ways}, ${body.rows.length} of ${count} rows`);
    columns++;
  }
}
for (const link of document.querySelectorAll('a[href^="#"]')) {
  const target = document.getElementById(link.getAttribute('href').slice(1));
  if (!target || target.getBoundingClientRect().height === 0) faults.push(`${link.outerHTML} leads nowhere`);
}
for (const text of document.querySelectorAll('svg.plot text')) {
  const inner = text.getBoundingClientRect(), outer = text.closest('svg').getBoundingClientRect();
  if (inner.left < outer.left || inner.right > outer.right) faults.push(`${text.textContent} is cut`);
}
for (const table of document.querySelectorAll('table')) {
  if (table.getBoundingClientRect().right > document.body.getBoundingClientRect().right) faults.push(`a table is ${table.offsetWidth} pixels wide`);
}
if (document.documentElement.scrollWidth > 1200) faults.push(`the page is ${document.documentElement.scrollWidth} pixels wide`);
const result = document.createElement('pre');
result.id = 'result';
result.textContent = JSON.stringify({ columns, faults });
document.body.append(result);
</script>"""


def page_faults(path, room):
    """what is wrong with a page that a browser reads"""
    with open(path, encoding="utf-8") as file:
        text = file.read()
    watched = os.path.join(room, "watched.html")
    with open(watched, "w", encoding="utf-8") as file:
        file.write(text.replace("<head>", "<head>" + BEFORE, 1).replace("</body>", BEHIND + "</body>", 1))
    words = [PROGRAM, "--headless", "--no-sandbox", "--disable-gpu", "--window-size=1200,900", f"--user-data-dir={room}/browser"]
    ran = subprocess.run([*words, "--dump-dom", f"file://{watched}"], capture_output=True, text=True, timeout=SECONDS, check=False)
    found = re.search(r'<pre id="result">(.*?)</pre>', ran.stdout, re.S)
    if not found:
        return [f"{PROGRAM} doesn't read the page: {ran.stderr[-300:]}"]
    result = json.loads(unescape(found[1]))
    return result["faults"] + ([] if result["columns"] else ["no table sorts"])
