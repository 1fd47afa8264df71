"""Parts of tools/try-web: hostile names, the keyboard, many files, the policy, and pictures."""
import os
import re
import time
from urllib.parse import urlsplit

import page_club
import page_proxy
from web_browser import Keys as b_keys
from web_trial import check, HOSTILE, is_alert, ROOT


def hostile(t):
    b = t.browser
    sly = t.member("sly")
    for number, name in enumerate(HOSTILE):
        sly.files("PUT", name, f"content {number}".encode())
    t.sign_in("sly")
    check(f"{len(HOSTILE)} hostile names are listed as they are", t.rows_are(HOSTILE), set(t.rows()) ^ set(HOSTILE))
    check("no element came of a name", not b.js("return document.querySelectorAll('img[src=x], svg[onload], #files script').length"))
    isolated = b.js("return [...document.querySelectorAll('#files tr[data-name] a')].every(a => a.querySelector('bdi') || a.closest('bdi') || getComputedStyle(a).unicodeBidi.includes('isolate'))")
    check("each name is isolated, whichever way it runs", isolated)
    titles = b.js("return [...document.querySelectorAll('#files tr[data-name]')].filter(r => r.dataset.name.length > 100).every(r => r.querySelector('[title]')?.title.includes(r.dataset.name))")
    check("a long name is its own title", titles)
    wide = b.js("return document.documentElement.scrollWidth > innerWidth")
    check("and makes the page no wider", not wide)
    t.looks("hostile names", "hostile")
    wrong = []
    for number, name in enumerate(HOSTILE):
        try:
            t.open_row(name)
            if not b.until(lambda: f"content {number}" in b.text("dialog[open]"), 4):
                # What isn't known to be a text may only be offered.
                if not b.js("return document.querySelector('dialog[open] h2')?.textContent.includes(arguments[0])", re.sub(r"[\n\u202e]", "", name)[-6:]):
                    wrong.append(name[:30])
            if is_alert(b):
                wrong.append("alert by " + name[:30])
            b.keys(b_keys.ESCAPE)
            t.closed()
        except Exception as fault:
            wrong.append((name[:30], str(fault)[-250:]))
            t.open()
            t.rows_are(HOSTILE)
    check("each is opened by a click", not wrong, wrong)
    sly.files("MKCOL", "in")
    wrong = []
    for number, name in enumerate(HOSTILE[:14]):
        sly.files("MKCOL", "in/" + name)
        sly.files("PUT", f"in/{name}/note.txt", b"n")
    t.go("#/files/in")
    t.rows_are(HOSTILE[:14])
    for name in HOSTILE[:14]:
        t.open_row(name)
        if not t.rows_are(["note.txt"]):
            wrong.append(("into", name[:30], t.rows()[:3]))
        b.driver.refresh()
        if not t.rows_are(["note.txt"]):
            wrong.append(("reload", name[:30], t.rows()[:3]))
        if re.sub(r"[\n\u202e]", "", name).strip()[-4:] not in b.js("return document.querySelector('h1').textContent"):
            wrong.append(("heading", name[:30]))
        b.click("link", "in", "nav[aria-label=Path]")
        t.rows_are(HOSTILE[:14])
    check("and each as a folder: in, reloaded, and up again", not wrong, wrong)
    t.go("#/files/")
    t.rows_are([*HOSTILE, "in"])
    wrong = []
    for name in HOSTILE[:6]:
        t.act(name, "Rename")
        given = b.find("field", "New name", "dialog[open]").get_attribute("value")
        if given != name and "\n" not in name:
            wrong.append((name, given))
        b.fill("New name", "plain-" + str(HOSTILE.index(name)), "dialog[open]")
        b.click("button", "Rename", "dialog[open]")
        if not b.until(lambda: sly.read(name) is None and sly.read("plain-" + str(HOSTILE.index(name)))) or not t.closed():
            wrong.append((name, t.said()))
            b.keys(b_keys.ESCAPE)
            t.closed()
    check("each is renamed", not wrong, wrong)
    b.click("button", "New folder")
    b.fill("Name", HOSTILE[0] + "2", "dialog[open]")
    b.click("button", "Make it", "dialog[open]")
    check("a folder is made of such a name", b.until(lambda: HOSTILE[0] + "2" in sly.names()), t.said())
    t.closed()
    b.click("button", "New folder")
    b.fill("Name", "y" * 241, "dialog[open]")
    b.click("button", "Make it", "dialog[open]")
    check("a name of 241 bytes is refused in words", b.until(lambda: re.search(r"240|long", t.said())), t.said())
    b.keys(b_keys.ESCAPE)
    t.closed()
    b.click("checkbox", "Select all")
    b.click("button", "Remove", "[role=toolbar]")
    b.click("button", "Remove", "dialog[open]")
    check("and all are removed", b.until(lambda: sly.names() == [], 30), sly.names())
    t.closed()

    evil, group = "<img src=x onerror=alert(1)>", "\u202e<b onmouseover=alert(1)>"
    other = t.member(evil)
    other.files("PUT", "from evil.txt", b"evil")
    other.share(path="/from evil.txt", shareType=0, shareWith="sly", permissions=1)
    t.ann.ocs("POST", "cloud/groups", groupid=group)
    sly.files("PUT", "plain.txt", b"plain")
    sly.share(path="/plain.txt", shareType=1, shareWith=group, permissions=1)
    sly.share(path="/plain.txt", shareType=0, shareWith=evil, permissions=1)
    t.open()
    t.has_row("from evil.txt")
    check("an owner of a hostile name is shown as text", evil in b.text("#files"), b.text("#files"))
    t.go("#/shares/given")
    check("so are those with whom something is shared", b.until(lambda: evil in b.text("#shares") and "<b onmouseover" in b.text("#shares")), b.text("#shares"))
    b.picture("hostile-shares")
    t.go("#/shares/received")
    b.until(lambda: evil in b.text("#shares"))
    t.sign_in(evil, other.token)
    check("a member of such a name signs in", t.rows_are(["from evil.txt", "plain.txt"]), t.rows())
    check("no alert came of any name", not is_alert(b))
    for one in (sly, other, t.ann):
        one.close()


def keyboard(t):
    b = t.browser
    tia = t.member("tia")
    tia.files("MKCOL", "aa")
    tia.files("PUT", "aa/in.txt", b"in")
    for name in ("bb.txt", "cc.txt", "dd.txt"):
        tia.files("PUT", name, b"x")
    t.forget()
    t.shown("sign-in")
    b.js("document.body.focus()")
    for _ in range(8):
        if b.js("return document.activeElement.labels?.[0]?.textContent.trim().startsWith('Name')"):
            break
        b.keys(b_keys.TAB)
    b.keys("tia", b_keys.TAB, "tia-1", b_keys.ENTER)
    t.shown("files")
    t.rows_are(["aa", "bb.txt", "cc.txt", "dd.txt"])

    def where():
        return b.js("return document.activeElement.closest('tr[data-name]')?.dataset.name")
    for _ in range(60):
        if where() and b.js("return document.activeElement.matches('a')"):
            break
        b.keys(b_keys.TAB)
    check("the tab key comes to the list", where() == "aa", where())
    ring = b.js("""const e = document.activeElement, look = x => { const s = getComputedStyle(x); return (s.outlineStyle !== 'none' && parseFloat(s.outlineWidth) >= 1) || s.boxShadow !== 'none'; };
                   return look(e) || look(e.closest('tr')) || [...e.closest('tr').cells].some(look)""")
    check("what has the focus is seen", ring)
    b.picture("focus")
    b.keys(b_keys.ARROW_DOWN)
    check("the arrow goes down", where() == "bb.txt", where())
    b.keys(b_keys.END)
    check("End goes to the last", where() == "dd.txt", where())
    b.keys(b_keys.HOME)
    check("Home goes to the first", where() == "aa", where())
    b.keys(b_keys.ENTER)
    check("Enter goes into a folder", t.rows_are(["in.txt"]), t.rows())
    b.driver.back()
    t.rows_are(["aa", "bb.txt", "cc.txt", "dd.txt"])
    for _ in range(60):
        if where() and b.js("return document.activeElement.matches('a')"):
            break
        b.keys(b_keys.TAB)
    b.keys(b_keys.END)
    b.keys(b_keys.F2)
    check("F2 renames", b.until(lambda: b.has("field", "New name", "dialog[open]")))
    # What stands before the ending is selected.
    b.keys("ee", b_keys.ENTER)
    check("by what is typed, and Enter", t.has_row("ee.txt") and t.closed() and tia.read("ee.txt") == b"x", t.said())
    check("the focus is on that row then", b.until(lambda: where() == "ee.txt", 3), where())
    b.keys(b_keys.DELETE)
    check("Delete asks", b.until(lambda: b.has("button", "Remove", "dialog[open]")))
    trapped = True
    for _ in range(8):
        b.keys(b_keys.TAB)
        trapped = trapped and b.js("return document.activeElement === document.body || !!document.activeElement.closest('dialog[open]')")
    check("the focus stays in the dialog", trapped)
    b.keys(b_keys.ESCAPE)
    check("Escape gives it back to the row", t.closed() and b.until(lambda: where() == "ee.txt", 3), where())
    b.keys(b_keys.DELETE)
    b.until(lambda: b.has("button", "Remove", "dialog[open]"))
    for _ in range(8):
        if b.focused().text.strip() == "Remove":
            break
        b.keys(b_keys.TAB)
    b.keys(b_keys.ENTER)
    check("a file is removed by the keyboard alone", t.rows_are(["aa", "bb.txt", "cc.txt"]) and tia.read("ee.txt") is None, t.rows())
    check("the focus isn't lost", b.until(lambda: b.js("return document.activeElement !== document.body"), 3))
    b.click("button", "Actions for", t.row("bb.txt"))
    check("a menu has the focus in its first item", b.until(lambda: b.js("return document.activeElement.getAttribute('role') === 'menuitem'"), 3))
    t.looks("a menu", "menu")
    b.keys(b_keys.ARROW_DOWN)
    b.keys(b_keys.ESCAPE)
    check("Escape closes the menu, and gives the focus back", b.until(lambda: b.js("return !document.querySelector('[role=menu]')?.checkVisibility() && document.activeElement.getAttribute('aria-label')?.startsWith('Actions for')"), 3))
    check("what is said is said to who hears the page", b.js("const s = document.querySelector('#said'); return s.getAttribute('role') === 'status' || !!s.getAttribute('aria-live')"))
    check("the page has a language, a title and one heading", b.js("return document.documentElement.lang && document.title && [...document.querySelectorAll('h1')].filter(e => e.checkVisibility()).length === 1"))
    tia.close()


def many_files(t):
    b = t.browser
    t.filled.join()
    t.sign_in("uma")
    begun = b.worked()
    t.go("#/files/many")
    check("10,000 files are listed", b.until(lambda: t.rows(), 60), t.rows())
    took = b.worked() - begun
    check(f"that took {1_000 * took:.0f} ms of the page's thread", took < 2)
    many = b.js("return document.querySelectorAll('#files tr').length")
    check(f"of which {many} rows are in the document", many < 400)
    count = b.js("return Number(document.querySelector('#files').getAttribute('aria-rowcount'))")
    check("the table tells how many there are", count >= 10_000, count)
    b.picture("ten-thousand")
    begun = b.worked()
    frames = b.driver.execute_async_script("""
        const done = arguments[0];
        let box = document.querySelector('#files');
        while (box && !(box.scrollHeight > box.clientHeight + 50 && /auto|scroll/.test(getComputedStyle(box).overflowY))) box = box.parentElement;
        box ??= document.scrollingElement;
        const times = [];
        let last = performance.now(), step = 0;
        const next = now => {
          times.push(now - last); last = now;
          box.scrollTop += 150;
          if (++step < 200) requestAnimationFrame(next);
          else { times.sort((a, b) => a - b); done([times[100], times[199], box.scrollTop]); }
        };
        requestAnimationFrame(next);""")
    middle, worst, top = frames
    each = 1_000 * (b.worked() - begun) / 200
    # 9,000 pixels a second, where nothing else holds the processor: of 60 frames a second each has 16.7 ms.
    check(f"it scrolls smoothly: of each frame the page's thread took {each:.1f} ms (by the clock {middle:.0f} ms, {worst:.0f} ms at most)", top > 29_000 and each < 16, frames)
    time.sleep(0.3)
    seen = b.js("""const b = document.querySelector('#files').getBoundingClientRect();
        return document.elementFromPoint(Math.min(innerWidth / 2, b.left + 200), innerHeight / 2)?.closest('tr[data-name]')?.dataset.name ?? null""")
    check("and shows rows where it stopped", seen, seen)
    # To the last row.
    b.js("""let box = document.querySelector('#files'); while (box && !(box.scrollHeight > box.clientHeight + 50 && /auto|scroll/.test(getComputedStyle(box).overflowY))) box = box.parentElement;
        (box ?? document.scrollingElement).scrollTop = 1e9""")
    check("the end has the last one", t.has_row("file 09999.txt"), t.rows()[-1:])
    begun = time.monotonic()
    b.fill("Find in this folder", "07777")
    check("one of them is found", t.rows_are(["file 07777.txt"]), t.rows()[:3])
    b.fill("Find in this folder", "")
    b.until(lambda: len(t.rows()) > 5)
    b.click("button", "Name")
    check("they are sorted the other way", t.has_row("file 09999.txt"), t.rows()[:2])


def fill_many(port):
    uma = page_club.Member(port, "uma")
    uma.files("MKCOL", "many")
    for number in range(10_000):
        if number % 2_000 == 0:
            uma.close()
        uma.files("PUT", f"many/file {number:05}.txt", b"")
    uma.close()


def policy(t):
    """That the policy holds, and is the same everywhere; and that what is told of violations would be seen."""
    b = t.browser
    for name in ("deploy/nginx.conf", "deploy/Caddyfile"):
        with open(os.path.join(ROOT, name), encoding="utf-8") as file:
            text = file.read()
        check(f"{name} has the policies of tools/page_proxy.py", f'"{page_proxy.PAGE_POLICY}"' in text and f'"{page_proxy.FILES_POLICY}"' in text)
    t.open()
    b.drain()
    at_first = len(violations(b))
    b.js("const s = document.createElement('script'); s.textContent = 'window.ran = 1'; document.body.append(s);"
         "const d = document.createElement('div'); d.setAttribute('onclick', 'window.ran = 2'); document.body.append(d); d.click();"
         "const i = new Image(); i.src = 'https://example.org/x.png'; document.body.append(i)")
    time.sleep(0.5)
    b.drain()
    check("a script, a handler and a picture that somebody put in don't run, and are logged", b.js("return window.ran") is None and len(violations(b)) >= at_first + 3, len(violations(b)))
    b.logged.clear()
    b.asked = [one for one in b.asked if not one[1].startswith("https://example.org/")]


def violations(b):
    return [one["message"] for one in b.logged if "Content Security Policy" in one["message"]]


def at_last(t):
    """What was asked and logged all the while."""
    b = t.browser
    b.drain()
    hosts = {urlsplit(one[1]).netloc for one in b.asked if urlsplit(one[1]).scheme in ("http", "https", "ws", "wss", "ftp")}
    own = urlsplit(t.address).netloc
    check(f"{len(b.asked)} requests went to the page's own host alone", hosts == {own}, hosts - {own})
    lacking = sorted({one["message"].split(" ")[0] for one in b.logged if re.search(r"/(?:js/|style|icon|index)\S* - Failed to load resource", one["message"])})
    check("each file that the page asks for is there", not lacking, lacking)
    check("no violation of the policy was logged", not violations(b), violations(b)[:3])
    errors = [one["message"] for one in b.logged if one["level"] == "SEVERE" and "Failed to load resource" not in one["message"] and not violations_in(one)]
    check("no script failed", not errors, errors[:5])
    tokens = [one[1] for one in b.asked if re.search(r"[?&/=](?:[a-z]+-1|ann-1)\b", urlsplit(one[1]).query)]
    check("no token of a member stood in an address", not tokens, tokens[:3])


def violations_in(entry):
    return "Content Security Policy" in entry["message"]


def showing(t):
    """Pictures of a club's files, as the README has them."""
    b = t.browser
    dora, emil = t.member("dora"), t.member("emil")
    t.ann.ocs("POST", "cloud/groups", groupid="board")
    for name in ("dora", "emil"):
        t.ann.ocs("POST", f"cloud/users/{name}/groups", groupid="board")
    for name in ("Minutes", "Photos", "Regatta", "Rules"):
        dora.files("MKCOL", name)
    sizes = {"Minutes/spring.pdf": 310_000, "Photos/launch.jpg": 2_400_000, "Photos/team.jpg": 3_100_000, "Regatta/crews.csv": 18_000, "Rules/house.txt": 4_100,
             "Budget.ods": 48_200, "Boathouse.png": 912_000, "Letter to members.txt": 2_300, "Members.csv": 15_800, "Season plan.pdf": 184_000}
    for name, size in sizes.items():
        dora.files("PUT", name, bytes(size))
    emil.files("MKCOL", "Boats")
    emil.files("PUT", "Boats/list.txt", bytes(5_200))
    emil.share(path="/Boats", shareType=1, shareWith="board", permissions=31)
    dora.share(path="/Regatta", shareType=1, shareWith="board", permissions=15)
    dora.share(path="/Regatta", shareType=3, permissions=1, expireDate="2031-06-30")
    dora.close(), emil.close(), t.ann.close()
    b.size(1000, 700)
    t.sign_in("dora")
    check("the README's pictures: the files of a member", t.has_row("Boats") and t.has_row("Season plan.pdf"), t.rows())
    b.picture("page-files")
    t.act("Regatta", "Share")
    shared = b.until(lambda: b.js("return document.querySelectorAll('dialog[open] li[data-share]').length") == 2)
    b.js("document.querySelector('dialog[open]').scrollTop = 0; const c = document.querySelector('dialog[open] .content'); if (c) c.scrollTop = 0")
    b.size(1000, 820)
    check("a folder that is shared with a group and by a link", shared)
    b.picture("page-share")
    b.keys(b_keys.ESCAPE)
    t.closed()
    b.scheme("dark")
    b.size(360, 640, phone=True)
    check("and the same on a phone in the dark", t.has_row("Boats"))
    b.picture("page-phone")
    b.scheme("light")
    b.size(1200)
