"""A headless Chromium as tools/try-web drives it: it finds controls by their names, as who reads the screen or hears it does, and keeps what was
asked of the network and what was logged."""
import base64
import json
import os
import time

from selenium import webdriver
from selenium.common.exceptions import WebDriverException
from selenium.webdriver.chrome.options import Options
from selenium.webdriver.chrome.service import Service
from selenium.webdriver.common.action_chains import ActionChains
from selenium.webdriver.common.keys import Keys

# How long something may take that a person waits for, on a machine that is busy with much else.
PATIENCE = 20
# Whoever hears the page knows each of these by its name alone.
NAMED = {"button", "link", "textbox", "searchbox", "checkbox", "radio", "combobox", "listbox", "menuitem", "menuitemcheckbox", "menuitemradio", "tab",
         "slider", "spinbutton", "switch", "progressbar", "dialog", "alertdialog", "menu", "toolbar", "navigation", "table", "grid", "img", "image", "region"}
FINDING = r"""
const [role, name, scope] = arguments;
const SELECTORS = {
  button: 'button, [role=button], input[type=submit], input[type=button], summary', link: 'a[href], [role=link]',
  field: 'input:not([type=checkbox]):not([type=radio]):not([type=file]), textarea, select', checkbox: 'input[type=checkbox], [role=checkbox]',
  radio: 'input[type=radio], [role=radio]', menuitem: '[role=menuitem]', dialog: 'dialog[open]', heading: 'h1, h2, h3', tab: '[role=tab]'};
const squeeze = text => (text ?? '').replace(/\s+/g, ' ').trim();
const named = e => {
  const by = e.getAttribute('aria-labelledby');
  if (by) return squeeze(by.split(/\s+/).map(id => document.getElementById(id)?.textContent).join(' '));
  if (e.getAttribute('aria-label')) return squeeze(e.getAttribute('aria-label'));
  if (e.labels?.length) return squeeze([...e.labels].map(l => l.textContent).join(' '));
  return squeeze(e.textContent) || squeeze(e.title);
};
const top = scope ? [...document.querySelectorAll(scope)].filter(e => e.checkVisibility()).pop() : document;
if (!top) return null;
const many = [...top.querySelectorAll(SELECTORS[role])].filter(e => e.checkVisibility());
return many.find(e => named(e) === squeeze(name)) ?? many.find(e => named(e).startsWith(squeeze(name))) ?? null;
"""
# Texts that are shown, whose contrast with what is behind them is below what is wanted: 4.5, or 3 where they are large.
CONTRAST = r"""
const parse = c => { const m = c.match(/rgba?\(([^)]+)\)/); if (!m) return null; const p = m[1].split(/[ ,/]+/).map(Number); return [p[0], p[1], p[2], p[3] ?? 1]; };
const over = (a, b) => [0, 1, 2].map(i => a[i] * a[3] + b[i] * (1 - a[3])).concat(1);
const light = c => { const [r, g, b] = c.slice(0, 3).map(v => (v /= 255) <= 0.03928 ? v / 12.92 : ((v + 0.055) / 1.055) ** 2.4); return 0.2126 * r + 0.7152 * g + 0.0722 * b; };
const behind = e => {
  const layers = [];
  for (let at = e; at; at = at.parentElement) { const c = parse(getComputedStyle(at).backgroundColor); if (c && c[3] > 0) { layers.push(c); if (c[3] === 1) break; } }
  return layers.reverse().reduce((below, c) => over(c, below), matchMedia('(prefers-color-scheme: dark)').matches ? [18, 18, 18, 1] : [255, 255, 255, 1]);
};
const found = new Map();
const walk = document.createTreeWalker(document.querySelector('dialog[open]') ?? document.body, NodeFilter.SHOW_TEXT);
while (walk.nextNode()) {
  const e = walk.currentNode.parentElement;
  if (!walk.currentNode.textContent.trim() || !e.checkVisibility({opacityProperty: true, visibilityProperty: true}) || e.closest(':disabled, [aria-disabled=true], script, style, template')) continue;
  const box = e.getBoundingClientRect(), style = getComputedStyle(e), c = parse(style.color);
  if (box.width < 2 || box.height < 2 || !c) continue;
  const below = behind(e), a = light(over(c, below)), b = light(below), ratio = (Math.max(a, b) + 0.05) / (Math.min(a, b) + 0.05);
  const size = parseFloat(style.fontSize), large = size >= 24 || (size >= 18.66 && Number(style.fontWeight) >= 700);
  if (ratio < (large ? 3 : 4.5) - 0.01) found.set(e.tagName + '.' + e.className, walk.currentNode.textContent.trim().slice(0, 30) + ' ' + ratio.toFixed(2));
}
return [...found].map(([where, what]) => where + ': ' + what);
"""


class Missing(Exception):
    """What a step of the trial needs isn't there."""


class Browser:
    def __init__(self, chromium, chromedriver, folder, pictures):
        self.pictures, self.downloads = pictures, os.path.join(folder, "downloads")
        os.makedirs(self.downloads, exist_ok=True)
        os.makedirs(pictures, exist_ok=True)
        options = Options()
        options.binary_location = chromium
        for one in ("--headless=new", "--disable-gpu", "--disable-dev-shm-usage", "--no-first-run", "--disable-background-networking",
                    "--disable-component-update", "--disable-default-apps", "--disable-sync", "--window-size=1200,860", "--lang=en-GB", "--force-color-profile=srgb",
                    f"--user-data-dir={folder}/profile", *(["--no-sandbox"] if os.geteuid() == 0 else [])):
            options.add_argument(one)
        options.set_capability("goog:loggingPrefs", {"browser": "ALL", "performance": "ALL"})
        options.set_capability("unhandledPromptBehavior", "ignore")
        options.accept_insecure_certs = True
        self.driver = webdriver.Chrome(service=Service(chromedriver), options=options)
        self.driver.set_script_timeout(120)
        self.cdp("Browser.setDownloadBehavior", behavior="allow", downloadPath=self.downloads)
        self.asked, self.logged = [], []

    def cdp(self, method, **words):
        return self.driver.execute_cdp_cmd(method, words)

    def js(self, text, *words):
        return self.driver.execute_script(text, *words)

    def drain(self):
        """Takes in what the browser wrote down since."""
        for entry in self.driver.get_log("performance"):
            message = json.loads(entry["message"])["message"]
            if message["method"] == "Network.requestWillBeSent":
                request = message["params"]["request"]
                self.asked.append((request["method"], request["url"], request["headers"]))
        self.logged += self.driver.get_log("browser")

    def until(self, is_so, seconds=PATIENCE):
        """What it returns once that is something, or its last value: what is changing meanwhile is looked at again."""
        end, value = time.monotonic() + seconds, None
        while True:
            try:
                value = is_so()
                if value:
                    return value
            except WebDriverException:
                pass
            if time.monotonic() > end:
                return value
            time.sleep(0.05)

    def find(self, role, name, scope=None, seconds=PATIENCE):
        found = self.until(lambda: self.js(FINDING, role, name, scope), seconds)
        if not found:
            raise Missing(f"there is no {role} {name!r}" + (f" in {scope}" if scope else ""))
        return found

    def has(self, role, name, scope=None):
        return bool(self.js(FINDING, role, name, scope))

    def click(self, role, name, scope=None, seconds=PATIENCE):
        """By the mouse: what lies over the control has the click instead, which is a fault."""
        fault = None
        for _ in range(3):
            one = self.find(role, name, scope, seconds)
            try:
                one.click()
                return one
            except WebDriverException as seen:
                fault = seen
                # It may lie below the head of a table, as after a person's scrolling; or another one has come in its place.
                self.js("if (arguments[0]) arguments[0].scrollIntoView({block: 'center'})", self.js(FINDING, role, name, scope))
                time.sleep(0.2)
        raise Missing(f"the {role} {name!r} can't be clicked: {fault.msg[-200:]}")

    def fill(self, name, text, scope=None):
        one = self.find("field", name, scope)
        if one.tag_name == "select":
            self.js("arguments[0].value = arguments[1]; arguments[0].dispatchEvent(new Event('change', {bubbles: true}))", one, text)
            return one
        if one.get_attribute("type") == "date":
            # As a person's keys would set it, whatever order the day and the month have here.
            self.js("arguments[0].value = arguments[1]; for (const e of ['input', 'change']) arguments[0].dispatchEvent(new Event(e, {bubbles: true}))", one, text)
            return one
        one.send_keys(Keys.CONTROL + "a")
        one.send_keys(Keys.DELETE)
        one.send_keys(text)
        return one

    def keys(self, *keys):
        ActionChains(self.driver).send_keys(*keys).perform()

    def focused(self):
        return self.driver.switch_to.active_element

    def text(self, selector):
        return self.js("return [...document.querySelectorAll(arguments[0])].filter(e => e.checkVisibility() || e.matches('[role=status]'))"
                       ".map(e => e.textContent).join(' | ').replace(/\\s+/g, ' ').trim()", selector)

    def unnamed(self):
        """The controls, groups and pictures that have no name for who hears the page."""
        self.cdp("Accessibility.enable")
        found = []
        for node in self.cdp("Accessibility.getFullAXTree")["nodes"]:
            role = node.get("role", {}).get("value")
            if not node.get("ignored") and role in NAMED and not (node.get("name", {}).get("value") or "").strip():
                try:
                    seen = self.cdp("DOM.getOuterHTML", backendNodeId=node["backendDOMNodeId"])["outerHTML"]
                except (WebDriverException, KeyError):
                    seen = ""
                found.append(f"{role} {seen[:160]}")
        return found

    def faint(self):
        return self.js(CONTRAST)

    def size(self, width, height=860, phone=False):
        self.cdp("Emulation.setDeviceMetricsOverride", width=width, height=height, deviceScaleFactor=2 if phone else 1, mobile=phone)

    def scheme(self, word):
        self.cdp("Emulation.setEmulatedMedia", features=[{"name": "prefers-color-scheme", "value": word}])

    def picture(self, name):
        time.sleep(0.35)
        path = os.path.join(self.pictures, name + ".png")
        with open(path, "wb") as file:
            file.write(base64.b64decode(self.cdp("Page.captureScreenshot", format="png")["data"]))
        return path

    def worked(self):
        """For how many seconds the threads of the browser's pages have had the processor, whatever else the machine does meanwhile."""
        above, ticks = {}, {}
        for name in filter(str.isdigit, os.listdir("/proc")):
            try:
                with open(f"/proc/{name}/task/{name}/stat", encoding="utf-8", errors="replace") as file:
                    fields = file.read().rpartition(")")[2].split()
                with open(f"/proc/{name}/cmdline", "rb") as file:
                    is_page = b"--type=renderer" in file.read()
            except OSError:
                continue
            above[int(name)] = int(fields[1])
            if is_page:
                ticks[int(name)] = int(fields[11]) + int(fields[12])
        own = self.driver.service.process.pid

        def is_own(process):
            return process == own or process in above and is_own(above[process])
        return sum(value for process, value in ticks.items() if is_own(process)) / os.sysconf("SC_CLK_TCK")

    def end(self):
        self.driver.quit()
