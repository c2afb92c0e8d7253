"""What the page has to show. Each function of Tests whose name begins with `see_` is a test, and returns
what it saw."""
import base64
import os
import re
import shutil
import time

from chromium import Failure
from files import element, large_list, make_files, openssl, parsed

ROWS = """[...document.querySelectorAll('#tree .row:not(.inner)')].map(row => [
  ...['.offset', '.length', '.tag'].map(it => row.querySelector(it).textContent), row.getAttribute('aria-level')])"""
FIELDS = """[...document.querySelectorAll('#fields .row')].map(row =>
  [row.querySelector('.name').textContent, row.querySelector('.text').textContent])"""

# Opens copies of a file of which octets are changed, draws all parts, and opens what can be opened. It
# returns the faults of the page's scripts, and how many copies have more than one element.
CHANGED = """(() => {
  const octets = Uint8Array.from(atob('%s'), it => it.charCodeAt(0)), page = window.yotremul, faults = [];
  let seed = 12345, read = 0;
  const random = n => { seed ^= seed << 13; seed ^= seed >>> 17; seed ^= seed << 5; return (seed >>> 0) %% n; };
  for (let round = 0; round < 40 && !faults.length; round += 1) {
    const copy = octets.slice(0, random(8) ? octets.length : random(octets.length));
    for (let count = random(3); count >= 0; count -= 1)
      copy[random(copy.length)] = [random(256), random(4), 0x30, 0x80, 0xa0, 0xff][random(6)];
    try {
      page.openFiles('changed', [{ label: '', octets: copy }]);
      for (const it of [page.treeView, page.fields, page.octetView])
        it.list.drawRows();
      page.select(random(page.tree.count) || -1);
      page.treeView.toggle(random(page.tree.count));
      page.treeView.list.drawRows();
      read += page.tree.count > 1;
    } catch (error) {
      faults.push(String(error.stack));
    }
  }
  return [faults, read];
})()"""


def see(held, what):
    if not held:
        raise Failure(what)


class Tests:
    """The page, and the files that it is shown."""

    def __init__(self, browser, page, folder):
        self.browser, self.folder = browser, folder
        self.page = f"{folder}/a folder/page.html"
        os.makedirs(os.path.dirname(self.page))
        shutil.copy(page, self.page)
        self.paths = make_files(folder)

    def start(self, fragment=""):
        self.browser.go("about:blank")
        self.browser.go(f"file://{self.page.replace(' ', '%20')}{fragment}")
        self.browser.wait("document.body.classList.contains('started')", "the page starts")

    def open(self, path, seconds=30):
        self.browser.value("document.getElementById('status').textContent = ''")
        self.browser.choose(path)
        self.browser.wait("document.getElementById('status').textContent !== ''", f"{path} is shown", seconds)
        self.browser.settle()

    def write(self, name, octets):
        with open(f"{self.folder}/{name}", "wb") as file:
            file.write(octets)
        return f"{self.folder}/{name}"

    def read(self, name):
        with open(f"{self.folder}/{name}", "rb") as file:
            return file.read()

    def text(self, place):
        return self.browser.value(f"document.querySelector('{place}').textContent")

    def see_trees(self):
        """The rows of each file are those of `openssl asn1parse`."""
        self.browser.size(1400, 9000)
        for path in self.paths:
            self.open(path)
            shown, wanted = self.browser.value(ROWS), parsed(path)
            see(shown == wanted, f"{os.path.basename(path)}: {[it for it in zip(shown, wanted) if it[0] != it[1]][:3]}"
                f" of {len(shown)} and {len(wanted)} rows")
        self.browser.size(1400, 900)
        return f"the elements of {len(self.paths)} files are those that openssl prints"

    def see_fields(self):
        """The fields of a certificate, a list and a request are those that openssl was given, and its dates."""
        self.browser.size(1400, 9000)
        subject = "C=DE, O=Test & Söhne, CN=example.org"
        self.open(f"{self.folder}/rsa-certificate.der")
        serial = openssl(self.folder, "x509", "-in", "rsa.crt", "-noout", "-serial").strip().partition("=")[2]
        wanted = [("serialNumber", serial), ("version", "v3 (2)"), ("subject", subject), ("issuer", subject),
                  ("signatureAlgorithm", "sha256WithRSAEncryption (1.2.840.113549.1.1.11)"),
                  ("dNSName", "example.org"), ("dNSName", "www.example.org"), ("rfc822Name", "a@example.org"),
                  ("uniformResourceIdentifier", "http://example.org/a.crl"), ("accessLocation", "http://example.org/b"),
                  ("extnValue", "keyCertSign, cRLSign"), ("cA", "TRUE"), ("policyIdentifier", "1.2.3.4")]
        dates = openssl(self.folder, "x509", "-in", "rsa.crt", "-noout", "-dates", "-dateopt", "iso_8601")
        for name in ("notBefore", "notAfter"):
            wanted.append((name, re.search(rf"{name}=(.*)Z", dates)[1].replace(" ", "T") + "Z"))
        self.hold_rows(wanted)
        self.open(f"{self.folder}/rsa-list.der")
        entry = [("userCertificate", str(0x1234)), ("revocationDate", "2026-01-02T03:04:05Z"), ("version", "v2 (1)"), ("issuer", subject)]
        self.hold_rows(entry)
        self.open(f"{self.folder}/ec-request.der")
        request = [("subject", subject), ("dNSName", "www.example.org"), ("algorithm", "id-ecPublicKey (1.2.840.10045.2.1)")]
        self.hold_rows(request)
        self.browser.size(1400, 900)
        return f"{len(wanted) + len(entry) + len(request)} fields are those that openssl was given"

    def hold_rows(self, wanted):
        shown = [tuple(it) for it in self.browser.value(FIELDS)]
        for label, text in wanted:
            see((label, text) in shown, f"{label}: {[it for it in shown if it[0] == label]}, and not {text}")

    def see_formats(self):
        """Each file has the title of its format, and rows of fields."""
        titles = {"certificate": "certificate", "request": "request", "list": "crl", "public": "public-key", "private": "private-key",
                  "message": "cms", "both": "pkcs12", "pkcs1": "rsa-private-key", "sec1": "ec-private-key",
                  "encrypted": "encrypted-private-key", "time": "timestamp-request", "status": "ocsp-request"}
        self.browser.size(1400, 3000)
        for path in self.paths:
            self.open(path)
            kind = os.path.basename(path)[:-4].split("-")[-1]
            see(self.text("#title") == titles[kind], f"{path} is shown as {self.text('#title')}")
            see(self.browser.value("document.querySelectorAll('#fields .row').length") >= 2, f"{path} has no fields")
        self.browser.size(1400, 9000)
        self.open(f"{self.folder}/message.der")
        self.hold_rows([("contentType", "pkcs7-signedData (1.2.840.113549.1.7.2)"), ("subject", "C=DE, O=Test & Söhne, CN=example.org")])
        self.browser.size(1400, 900)
        return f"{len(titles)} formats have their titles and fields"

    def see_hostile(self):
        """A name with elements of HTML is a text, and its mark of direction is shown by its octets (RFC 4514, 2.4)."""
        self.open(f"{self.folder}/hostile.cer")
        browser = self.browser
        see(browser.value("window.hacked") is None, "a name is executed")
        see(browser.value("document.images.length") == 0, "a name makes an element")
        see(browser.value("document.scripts.length") == 1, "a name makes a script")
        everything = self.text("body")
        see("<img src=x onerror=window.hacked=1>" in everything, "the name is not shown as it is")
        see("\u202e" not in everything and "\\E2\\80\\AEgro.evil" in everything, "a mark of direction is in the page")
        return "a hostile name executes nothing"

    def see_broken(self):
        """The octets of the first departure are marked and visible, and its section is said."""
        whole = self.read("ec-certificate.der")
        inside = int(next(it[0] for it in parsed(f"{self.folder}/ec-certificate.der") if it[2] == "UTCTime"))
        cases = {"tag": (whole[:inside] + b"\x02" + whole[inside + 1:], inside, "X.680 31"),
                 "cut": (whole[:-9], 0, "X.690 8.1.4"), "more": (whole + b"\0", len(whole), "X.690 8.1.1, 8.9.2"),
                 "length": (whole[:inside + 1] + b"\x81\x0b" + whole[inside + 3:], inside, "X.690 10.1")}
        for name, (octets, place, section) in cases.items():
            self.open(self.write(f"{name}.cer", octets))
            shown = self.browser.value("[...document.querySelectorAll('#octets .digits .fault')].filter(it => "
                                       "it.getBoundingClientRect().top < innerHeight).map(it => Number(it.dataset.at))")
            see(place in shown, f"{name}: {shown} are marked, and not {place}")
            said = self.text("#status")
            see(section in said and f"offset {place}." in said, f"{name}: {said}")
            rows = self.browser.value("document.querySelectorAll('#tree .row').length")
            see(rows > 8, f"{name}: {rows} elements are shown")
        return f"{len(cases)} broken files show the place, and their elements"

    def see_list(self):
        """All departures are listed, with their sections, and each leads to its octets."""
        whole = self.read("ec-certificate.der")
        places = [int(it[0]) for it in parsed(f"{self.folder}/ec-certificate.der") if it[2] == "UTCTime"]
        octets = bytearray(whole)
        for it in places:
            octets[it + 4:it + 6] = b"33"
        self.open(self.write("months.cer", bytes(octets)))
        self.browser.value("document.getElementById('departures').click()")
        listed = self.browser.value("[...document.querySelectorAll('#items li')].map(it => [Number(it.dataset.offset), it.textContent])")
        see([it[0] for it in listed] == places and all("X.680" in it[1] for it in listed), f"{listed} are listed, and not {places}")
        self.browser.value("document.querySelectorAll('#items li')[1].click()")
        self.browser.settle()
        chosen = self.browser.value("document.querySelector('#tree .row.selected .offset').textContent")
        see(chosen == str(places[1]), f"{chosen} is selected, and not {places[1]}")
        return f"{len(places)} departures are listed"

    def see_value(self):
        """A certificate with a wrong value is shown with all its elements, and the value is marked."""
        whole = self.read("ec-certificate.der")
        at = next(int(it[0]) for it in parsed(f"{self.folder}/ec-certificate.der") if it[2] == "UTCTime") + 2
        self.open(self.write("month.cer", whole[:at + 2] + b"33" + whole[at + 4:]))
        said = self.text("#status")
        see(f"offset {at - 2}." in said and "not BER" in said, said)
        see(self.text("#title") == "certificate", self.text("#title"))
        self.browser.size(1400, 9000)
        see(len(self.browser.value(ROWS)) == len(parsed(f"{self.folder}/month.cer")), "elements are missing")
        see(self.browser.value("document.querySelectorAll('#tree .wrong').length") == 1, "the value is not marked")
        self.browser.size(1400, 900)
        return "a certificate with a wrong month is shown, and that value is marked"

    def see_ways(self):
        """PEM, base64 and hexadecimal are read; a text that is none of them is refused."""
        whole, browser = self.read("ec-certificate.der"), self.browser
        pem = self.read("ec.crt").decode()
        texts = [pem, "".join(pem.splitlines()[1:-1]), whole.hex(), " ".join(f"{it:02X}" for it in whole)]
        for text in texts:
            browser.value("document.getElementById('status').textContent = ''; document.getElementById('paste').click(); "
                          f"document.getElementById('text').value = {text!r}; document.getElementById('read').click()")
            browser.settle()
            see(f"{len(whole):,} octets" in self.text("#status"), self.text("#status"))
            self.open(self.write("text.cer", text.encode()))
            see(f"{len(whole):,} octets" in self.text("#status"), self.text("#status"))
        self.open(self.write("two.cer", self.read("ec.crt") + self.read("rsa.pem")))
        see(browser.value("document.querySelectorAll('#block option').length") == 2, "two blocks are not offered")
        self.open(self.write("none.cer", b"neither of them!"))
        see("neither PEM nor base64" in self.text("#status"), self.text("#status"))
        data = "const data = new DataTransfer(); data.items.add(new File([new Uint8Array([5, 0])], 'dropped')); "
        browser.value(f"{data} window.dispatchEvent(new DragEvent('drop', {{dataTransfer: data}}))")
        browser.wait("document.getElementById('status').textContent.startsWith('dropped: 2 octets, 1 element')", "a file is dropped")
        browser.value("(() => { const data = new DataTransfer(); data.setData('text', '0500'); "
                      "window.dispatchEvent(new ClipboardEvent('paste', {clipboardData: data})) })()")
        browser.wait("document.getElementById('status').textContent.startsWith('pasted: 2 octets, 1 element')", "a text is pasted")
        return "DER, PEM, base64 and hexadecimal are chosen, pasted and dropped"

    def see_ber(self):
        """A message under BER is shown, with its departures from DER."""
        openssl(self.folder, "cms", "-sign", "-in", "text", "-signer", "rsa.crt", "-inkey", "rsa.pem", "-nodetach",
                "-binary", "-outform", "DER", "-stream", "-out", "message.ber")
        self.browser.size(1400, 9000)
        self.open(f"{self.folder}/message.ber")
        see("BER, but not DER: indefinite length (X.690 10.1), at offset 0." in self.text("#status"), self.text("#status"))
        text = openssl(self.folder, "asn1parse", "-inform", "DER", "-in", "message.ber")
        wanted = [it for it in re.findall(r"^ *(\d+):d=.*?(?:prim|cons): (\w+)", text, re.M) if it[1] != "EOC"]
        see([it[0] for it in self.browser.value(ROWS)] == [it[0] for it in wanted], "the elements under BER differ")
        self.hold_rows([("subject", "C=DE, O=Test & Söhne, CN=example.org")])
        self.browser.size(1400, 900)
        return "a message under BER is shown with its fields"

    def see_keys(self):
        """Arrows move, close and open; the octets follow; a click on an octet selects its element."""
        self.open(f"{self.folder}/ec-certificate.der")
        browser = self.browser
        browser.value("document.getElementById('tree').focus()")
        chosen = "document.querySelector('#tree .row.selected')?.querySelector('.offset').textContent"
        for key, wanted in (("Home", "0"), ("ArrowDown", "4"), ("ArrowDown", "8"), ("ArrowRight", "10"), ("ArrowLeft", "8")):
            browser.press(key)
            see(browser.value(chosen) == wanted, f"after {key} {browser.value(chosen)} is selected, and not {wanted}")
        before = browser.value("document.querySelector('#tree .space').style.height")
        browser.press("ArrowLeft")
        see(browser.value("document.querySelector('#tree .space').style.height") != before, "ArrowLeft does not close")
        browser.wait("location.hash === '#offset=8'", "the address has the offset", 5)
        marked = "[...document.querySelectorAll('#octets .digits .selected')].map(it => Number(it.dataset.at))"
        see(browser.value(marked) == [8, 9, 10, 11, 12], f"marked are {browser.value(marked)}")
        browser.press("ArrowRight")
        browser.value("document.querySelector('#octets .digits [data-at=\"12\"]').click()")
        browser.settle()
        see(browser.value(chosen) == "10", f"a click on octet 12 selects {browser.value(chosen)}")
        return "keys and clicks move in the elements and the octets"

    def see_hover(self):
        """The row below the mouse has its octets marked, and the octet its row."""
        browser = self.browser
        x, y = browser.value("(() => { const it = document.querySelectorAll('#tree .row')[3].getBoundingClientRect(); "
                             "return [it.left + 200, it.top + 9] })()")
        browser.mouse("mouseMoved", x, y)
        marked = browser.value("[...document.querySelectorAll('#octets .digits .hovered')].map(it => Number(it.dataset.at))")
        row = browser.value("document.querySelectorAll('#tree .row')[3].querySelector('.offset').textContent")
        see(marked and marked[0] == int(row), f"octets {marked} are marked below row {row}")
        x, y = browser.value("(() => { const it = document.querySelector('#octets .digits [data-at=\"1\"]').getBoundingClientRect(); "
                             "return [it.left + 5, it.top + 9] })()")
        browser.mouse("mouseMoved", x, y)
        see(browser.value("document.querySelector('#tree .row.hovered .offset').textContent") == "0", "the row is not marked")
        browser.mouse("mouseMoved", 5, 5)
        return "what is below the mouse is marked in the other part"

    def see_contents(self):
        """The elements in an OCTET STRING are shown below it when it is opened."""
        inside = element(0x30, bytes.fromhex("0201050c0141"))
        self.open(self.write("contents.cer", element(0x30, element(0x04, inside))))
        before = self.browser.value(ROWS)
        self.browser.value("document.querySelector('#tree [aria-expanded=false] .expander').click()")
        self.browser.settle()
        see(self.browser.value("document.querySelectorAll('#tree .row.inner').length") == 3, "the elements inside are not shown")
        see(self.browser.value(ROWS) == before, "other rows have changed")
        return "the contents of an OCTET STRING are opened"

    def see_link(self):
        """A link to an offset is followed when the file is opened."""
        self.start("#offset=10")
        self.open(f"{self.folder}/ec-certificate.der")
        chosen = self.browser.value("document.querySelector('#tree .row.selected .offset').textContent")
        see(chosen == "10", f"{chosen} is selected, and not 10")
        octets = base64.urlsafe_b64encode(self.read("ec-public.der")).decode().rstrip("=")
        self.start(f"#der={octets}&offset=2")
        self.browser.settle()
        chosen = self.browser.value("document.querySelector('#tree .row.selected .offset').textContent")
        see(self.text("#title") == "public-key" and chosen == "2", f"a link with a file shows {self.text('#title')} at {chosen}")
        self.browser.value("document.querySelector('#fields .row[data-offset=\"23\"] a').click()")
        self.browser.settle()
        chosen = self.browser.value("document.querySelector('#tree .row.selected .offset').textContent")
        see(chosen == "23", f"a link of a field selects {chosen}")
        return "links to an offset select the element"

    def see_small(self):
        """On a narrow screen one part is visible, and the page is not wider than the screen."""
        self.browser.size(380, 720)
        for tab in ("fields", "tree", "octets"):
            self.browser.value(f"document.querySelector('[data-tab={tab}]').click()")
            self.browser.settle()
            seen = self.browser.value("['fields', 'tree', 'octets'].filter(it => document.getElementById(it).clientHeight > 50)")
            see(seen == [tab], f"visible are {seen}")
            see(self.browser.value("document.documentElement.scrollWidth") <= 380, f"{tab} is wider than the screen")
        see(self.browser.value("document.querySelector('#octets .digits').children.length") == 8, "rows of octets are not short")
        self.browser.size(1400, 900)
        return "a narrow screen shows one part"

    def see_schemes(self):
        colours = []
        for scheme in ("light", "dark"):
            self.browser.scheme(scheme)
            colours.append(self.browser.value("getComputedStyle(document.body).backgroundColor"))
        self.browser.scheme("light")
        see(colours[0] != colours[1], f"light and dark are {colours}")
        return "light and dark differ"

    def see_large(self):
        """A revocation list of 10 MiB is shown in seconds, with few rows; its last entry can be reached."""
        path, count = self.write("large.cer", large_list(self.read("rsa-list.der"))), 0
        started = time.monotonic()
        self.open(path, 60)
        seconds = time.monotonic() - started
        size = os.path.getsize(path)
        rows = self.browser.value("document.querySelectorAll('.row').length")
        see(rows < 400, f"{rows} rows are made")
        count = int(re.search(r"([\d,]+) elements", self.text("#status"))[1].replace(",", ""))
        see(self.text("#title") == "crl", self.text("#title"))
        self.browser.value("document.getElementById('tree').focus()")
        started = time.monotonic()
        self.browser.press("End")
        offset = int(self.browser.value("document.querySelector('#tree .row.selected .offset').textContent"))
        see(size - 300 < offset < size, f"the last row is at {offset} of {size}")
        for key in ("PageUp", "ArrowUp", "ArrowDown", "Home"):
            self.browser.press(key)
        each = (time.monotonic() - started) / 5
        self.browser.value("document.getElementById('fields').scrollTop = 1e9")
        self.browser.settle()
        self.browser.settle()
        last = self.browser.value("[...document.querySelectorAll('#fields .name')].pop().textContent")
        see(last == "signature", f"the last field is {last}")
        see(seconds < 20 and each < 1, f"it took {seconds:.1f} s, and {each:.2f} s a key")
        return f"a list of {size:,} octets and {count:,} elements is shown in {seconds:.1f} s, and a key takes {each:.2f} s"

    def see_changed(self):
        """No change of octets makes a script of the page fail."""
        self.browser.size(1400, 2000)
        total = 0
        for path in self.paths:
            with open(path, "rb") as file:
                faults, read = self.browser.value(CHANGED % base64.b64encode(file.read()).decode())
            see(not faults, f"{os.path.basename(path)}: {faults}")
            total += read
        see(total > len(self.paths), f"only {total} of {40 * len(self.paths)} copies are read")
        self.browser.size(1400, 900)
        return f"{40 * len(self.paths)} files with changed octets are shown, {total} of them with more than one element"

    def see_deep(self):
        """Elements are nested up to the limit, and no deeper ones break the page."""
        octets = b"\x05\x00"
        for _ in range(60):
            octets = element(0x30, octets)
        self.open(self.write("deep.cer", octets))
        see("element" in self.text("#status"), self.text("#status"))
        return "deep nesting is shown"

    def see_unsupported(self):
        """A browser without memory64 gets a message."""
        made = self.browser.call("Page.addScriptToEvaluateOnNewDocument", source="WebAssembly.validate = () => false")
        self.browser.go(f"file://{self.page.replace(' ', '%20')}")
        said = self.text("#unsupported")
        self.browser.call("Page.removeScriptToEvaluateOnNewDocument", identifier=made["identifier"])
        see("64-bit addresses" in said and "Firefox" in said, said)
        return "a browser that cannot run it gets a message"

    def see_requests(self):
        """Nothing but the page itself was asked for, and no script failed."""
        asked = [it["params"]["request"]["url"] for it in self.browser.events if it.get("method") == "Network.requestWillBeSent"]
        other = {it for it in asked if not it.startswith(("data:", "blob:", "about:")) and not it.startswith("file://") or "page.html" not in it}
        see(asked and not {it for it in other if not it.startswith("data:")}, f"it asked for {other}")
        faults = [it["params"] for it in self.browser.events if it.get("method") in ("Runtime.exceptionThrown", "Log.entryAdded")]
        see(not faults, f"the browser says {faults[:3]}")
        return "the page asked no host, and no script failed"
