"""Tries the page in a browser as its users would."""
import os
import re
import shutil
import subprocess
import tempfile
import time

from plain_edition import packages, repository
from plain_edition.trials import elsewhere, images, score

from . import pages
from .browser import Browser, Keys

PICTURES = os.path.join(repository.MADE, "pictures")
LEVEL = """MANUFACTURER 1, DEVICE_TYPE 1, DEVICE_REVISION 1, DD_REVISION 1
MENU main { LABEL "Level meter"; ITEMS { level, mode, flags, high } }
VARIABLE level { LABEL "Level"; CONSTANT_UNIT "mm"; TYPE UNSIGNED_INTEGER (2) { DEFAULT_VALUE 50; MAX_VALUE 100; } }
VARIABLE mode { LABEL "Mode"; TYPE ENUMERATED { { 0, "Simple" } { 1, "Full" } } }
VARIABLE flags { LABEL "Flags"; TYPE BIT_ENUMERATED { { 1, "Dry" } { 2, "Full" } } }
VARIABLE high { LABEL "High alarm"; VALIDITY IF (mode == 1) { TRUE; } ELSE { FALSE; } TYPE INTEGER (2); }
"""
DEVICE = """MANUFACTURER 1, DEVICE_TYPE 1, DEVICE_REVISION 1, DD_REVISION 1
VARIABLE level { LABEL "Level"; TYPE UNSIGNED_INTEGER (2); }
"""
# A text that fills as many bytes as a source may have.
MOST = 1 << 20


def first_example(counts, browser):
    counts.check("Flow transmitter" in browser.screen() and "l/min" in browser.screen(), f"the first screen: {browser.screen()!r}")
    ready = float(browser.script("return document.body.dataset.ready"))
    counts.check(ready < 1000, f"the first screen after {ready:.0f} ms")
    return f"the first screen after {ready:.0f} ms"


def changed_text(counts, browser):
    browser.source(LEVEL)
    browser.sees("screen", "Level meter")
    counts.check("50 mm" in browser.screen() and "High alarm" not in browser.screen(), f"the screen of a text: {browser.screen()!r}")
    at = LEVEL[:LEVEL.index("Level meter")].split("\n")
    browser.focus_editor(len(at) - 1, len(at[-1]))
    browser.keys("My ")
    browser.sees("screen", "My Level meter")
    counts.check("My Level meter" in browser.screen(), "a typed word is on the screen")


def faults(counts, browser):
    """A fault is at its line, the screen stays, and both are as before where it is mended."""
    browser.source(LEVEL.replace("DEFAULT_VALUE 50;", "DEFAULT_VALUE 50"))
    browser.sees("source-findings", "refused")
    found = browser.text("source-findings")
    counts.check(re.search(r"3:\d+ refused: 10 ", found), f"the fault and its line: {found!r}")
    counts.check(browser.script("return document.querySelectorAll('#source .finding.refused').length") > 0, "a fault is underlined")
    counts.check("refused" in browser.text("stale") or "10 " in browser.text("stale"), f"the screen is of before: {browser.text('stale')!r}")
    browser.click("#source-findings summary")
    meaning = browser.until(lambda: browser.script("return document.querySelector('#source-findings pre').innerText"), "the meaning of a number")
    counts.check(len(meaning) > 40, f"the meaning of a number: {meaning!r}")
    line = LEVEL.split("\n")[2]
    browser.focus_editor(2, line.index("DEFAULT_VALUE 50") + len("DEFAULT_VALUE 50"))
    browser.keys(";")
    counts.check(browser.until(lambda: browser.text("source-findings") == "", "no fault is left"), "a fault is mended")
    counts.check(browser.text("stale") == "", "the screen is that of the text again")


def editing(counts, browser):
    """Words that may stand at a place, what is told of a word, and the layout."""
    browser.source(LEVEL.replace("high }", "hi }"))
    line = LEVEL.split("\n")[1]
    browser.focus_editor(1, line.index("high }") + len("hi"))
    browser.chord(Keys.CONTROL, " ")
    offered = browser.until(lambda: browser.script("return [...document.querySelectorAll('.CodeMirror-hint')].map((it) => it.innerText)"), "words")
    counts.check(any(it.startswith("high") for it in offered), f"the words that may stand there: {offered}")
    browser.keys(Keys.ENTER)
    counts.check(browser.until(lambda: browser.text("source-findings") == "", "no fault"), "the word is put in")
    told = browser.script("const s = window.app.source; s.tell({ line: 5, ch: 10 }); return document.querySelector('#source .told')?.title ?? ''")
    counts.check("VARIABLE high" in told and "High alarm" in told, f"what is told of a variable: {told!r}")
    browser.source("MANUFACTURER 1,DEVICE_TYPE 1,DEVICE_REVISION 1,DD_REVISION 1\nVARIABLE ä")
    browser.click("#lay-out")
    counts.check("3 " in browser.text("said"), f"why nothing is laid out: {browser.text('said')!r}")
    browser.source("MANUFACTURER 1,DEVICE_TYPE 1,DEVICE_REVISION 1,DD_REVISION 1")
    browser.click("#lay-out")
    laid_out = browser.script("return window.app.source.text()")
    counts.check(laid_out == "MANUFACTURER 1, DEVICE_TYPE 1, DEVICE_REVISION 1, DD_REVISION 1\n", f"the layout: {laid_out!r}")


def edits(counts, browser):
    browser.source(LEVEL)
    browser.click("#screen .entry", "Level")
    browser.type("#screen input[name=value]", "101")
    browser.keys(Keys.ENTER)
    browser.sees("said", "281 OUT_OF_LIMITS")
    browser.type("#screen input[name=value]", "100")
    browser.keys(Keys.ENTER)
    browser.until(lambda: "100 mm" in browser.screen(), "the edit")
    counts.check(browser.text("said") == "", "the refusal is gone")
    browser.click("#screen .entry", "Mode")
    browser.click("#screen .option", "Full")
    browser.sees("screen", "High alarm")
    browser.click("#screen .entry", "Flags")
    browser.click("#screen .option", "Dry")
    browser.click("#screen .option", "Full")
    browser.click("#screen button", "Back")
    counts.check("3 Dry, Full" in browser.screen(), f"bits: {browser.screen()!r}")


def asked_bits(counts, browser):
    """A method that asks for bits gets those that were changed, and one that no enumerator names stays as it was."""
    body = 'flags = 4; GET_DEV_VAR_VALUE("Which flags?", flags);'
    browser.source(f"{LEVEL.replace('high }', 'high, ask }')}METHOD ask {{ LABEL \"Ask\"; DEFINITION {{ {body} }} }}\n")
    browser.script("window.app.device.write(''); window.app.open()")
    browser.click("#screen .entry", "Ask")
    browser.click("#asked-dialog .option", "Full")
    browser.click("#asked-dialog button", "OK")
    browser.sees("said", "end ended")
    counts.check("answer 0 flags=6" in browser.text("run-list"), f"the answer: {browser.text('run-list')!r}")


def calibrate(browser, example="flow_transmitter"):
    browser.script("return window.app.example(arguments[0])", example)
    browser.sees("screen", "Calibrate")
    browser.click("#run button", "Clear")
    browser.click("#screen .entry", "Calibrate")
    browser.sees("asked-dialog", "Is the flow steady?")


def to_its_end(counts, browser, program):
    """A calibration with a device, whose script then does the same in the program."""
    calibrate(browser)
    browser.click("#asked-dialog button", "OK")
    browser.sees("asked-dialog", "second meter")
    browser.type("#asked-dialog input", "5001")
    browser.keys(Keys.ENTER)
    browser.sees("asked-dialog", "281 OUT_OF_LIMITS")
    browser.type("#asked-dialog input", "500")
    browser.keys(Keys.ENTER)
    browser.sees("said", "end ended")
    # 1000 * 500 / 480 is 1041.
    browser.until(lambda: "1041" in browser.screen(), "the new factor")
    run = browser.text("run-list")
    for words in ("send_command 6", "answer 0 output_mode=1", "factor = 1041", "end ended"):
        counts.check(words in run, f"{words!r} in the run {run!r}")
    browser.click("#save-script")
    name, script = browser.saved(".calibrate.script")
    counts.check(name == "flow_transmitter.calibrate.script", f"the name of the script: {name}")
    lines = tried(program, "flow_transmitter", "calibrate", script)
    counts.check(requests_of(lines) == requests_of_run(run), f"the requests of the program: {lines!r}, and of the page: {run!r}")
    for words in ("end ended", "value factor 1041", "value reference_flow 500"):
        counts.check(words in lines, f"{words!r} in what the program does: {lines!r}")
    browser.click("#save-test")
    name, test = browser.saved(".calibrate.test")
    updated, again = tested(program, "flow_transmitter", name, test)
    counts.check("1 passed, 0 failed" in updated and "updated" in updated, f"the saved test: {updated!r}")
    counts.check(again.endswith("1 passed, 0 failed\n") and "updated" not in again, f"the saved test again: {again!r}")


def tried(program, example, method, script):
    with tempfile.NamedTemporaryFile("w", suffix=".script") as file:
        file.write(script)
        file.flush()
        words = [program, "try", os.path.join(pages.EXAMPLES, f"{example}.edd"), method, file.name]
        return subprocess.run(words, capture_output=True, text=True, timeout=60, check=False).stdout


def tested(program, example, name, test):
    """What is said of a saved test, beside its source, when its lines are written and after that."""
    with tempfile.TemporaryDirectory() as room:
        shutil.copy(os.path.join(pages.EXAMPLES, f"{example}.edd"), room)
        with open(os.path.join(room, name), "w", encoding="utf-8") as file:
            file.write(test)
        return [subprocess.run([program, "test", name, *more], cwd=room, capture_output=True, text=True, timeout=60, check=False).stdout
                for more in (["--update"], [])]


def requests_of(lines):
    """How many requests the program prints, and which commands are sent."""
    return re.findall(r"send_command \d+", lines)


def requests_of_run(run):
    return re.findall(r"send_command \d+", run)


def aborted(counts, browser):
    """A calibration is aborted, and its abort methods put the output back and report it."""
    calibrate(browser)
    browser.click("#asked-dialog button", "Abort")
    browser.sees("asked-dialog", "The calibration was aborted")
    browser.click("#asked-dialog button", "OK")
    browser.sees("said", "end aborted")
    counts.check("Automatic" in browser.screen(), f"the output after the abort: {browser.screen()!r}")
    calibrate(browser)
    browser.keys(Keys.ESCAPE)
    browser.sees("asked-dialog", "The calibration was aborted")
    browser.keys(Keys.ENTER)
    browser.sees("said", "end aborted")
    counts.check(not browser.script("return document.getElementById('asked-dialog').open"), "the dialog is closed")


def delays(counts, browser):
    """A delay shows a bar, may be passed, and the device moves with it."""
    browser.script("return window.app.example('valve_positioner')")
    browser.click("#values-tab")
    browser.sees("device-values", "Where the stem goes")
    browser.click("#screen .entry", "Find the ends")
    browser.click("#asked-dialog button", "OK")
    browser.until(lambda: browser.all("#asked-dialog progress"), "a bar")
    counts.check("The valve moves" in browser.text("asked-dialog"), f"the text of a delay: {browser.text('asked-dialog')!r}")
    for _ in range(40):
        if "end ended" in browser.text("said"):
            break
        if browser.all("#asked-dialog button"):
            browser.script("[...document.querySelectorAll('#asked-dialog button')].find((it) => it.textContent === 'Skip')?.click()")
        time.sleep(0.05)
    browser.sees("said", "end ended")
    counts.check("3900" in browser.text("device-values"), f"the device at its open end: {browser.text('device-values')!r}")


def endless(counts, browser):
    """Methods that never end keep the page alive, and it can start anew."""
    for body in ("while (1) { }", 'while (1) PUT_MESSAGE("again");', "while (1) send_command(1);"):
        more = 'COMMAND c { NUMBER 1; OPERATION READ; TRANSACTION { REPLY { level } } }\n'
        browser.source(f"{LEVEL.replace('high }', 'high, endless }')}{more}METHOD endless {{ LABEL \"Endless\"; DEFINITION {{ {body} }} }}\n")
        browser.script("window.app.device.write(arguments[0]); window.app.open()", DEVICE)
        browser.click("#screen .entry", "Endless")
        browser.sees("asked-dialog", "The method still runs")
        browser.click("#asked-dialog button", "Start anew")
        browser.until(lambda: not browser.script("return document.getElementById('asked-dialog').open"), "the end of a method")
        browser.click("#screen .entry", "Level")
        counts.check("New value" in browser.screen(), f"the page after {body}")


def languages(counts, browser):
    browser.script("return window.app.example('flow_transmitter')")
    browser.script("const it = document.getElementById('languages'); it.value = 'de'; it.dispatchEvent(new Event('change'))")
    browser.sees("screen", "Durchfluss")
    counts.check("Kalibrieren" in browser.screen(), f"the screen in German: {browser.screen()!r}")
    browser.script("const it = document.getElementById('languages'); it.value = 'en'; it.dispatchEvent(new Event('change'))")
    browser.sees("screen", "Calibrate")


def image_lines(counts, browser):
    """A click on a row of the image goes to its attribute in the source."""
    browser.script("return window.app.example('flow_transmitter')")
    browser.click("#image-tab")
    text = browser.until(lambda: browser.script("return window.app.image.editor.getValue()"), "the image")
    counts.check(text.startswith("header magic ") and "row 0 variable 0 flow LABEL" in text, f"the lines of the image: {text[:80]!r}")
    line = next(at for at, it in enumerate(text.split("\n")) if "output_mode HANDLING" in it)
    browser.script("const e = window.app.image.editor; e.focus(); e.setCursor(arguments[0] + 1, 0)", line)
    browser.keys(Keys.ENTER)
    chosen = browser.script("const e = window.app.source.editor; return [e.getSelection(), e.getLine(e.getCursor().line)]")
    counts.check(chosen[0] == "HANDLING" and "noted_mode" in chosen[1], f"where a row of the image leads: {chosen}")


def kept_texts(counts, browser):
    """A text is there after the page was left, and a link holds it."""
    browser.source(LEVEL)
    browser.focus_editor(0, 0)
    browser.keys("/* kept */")
    browser.until(lambda: "/* kept */" in (browser.script("return localStorage.getItem('edd')") or ""), "the text in the store")
    browser.open()
    counts.check(browser.sees("screen", "Level meter"), "a text is there after the page was left")
    browser.click("#share")
    link = browser.until(lambda: browser.script("return location.hash.length > 1 && location.hash"), "a link")
    browser.forget()
    browser.open(link)
    counts.check(browser.sees("screen", "Level meter"), "a link holds a text")
    for wrong in ("#x", "#AAAA", "#%%%"):
        browser.forget()
        browser.open(wrong)
        counts.check(browser.sees("screen", "Flow transmitter"), f"the link {wrong}")
    return f"a link of {len(link)} characters"


def large(size):
    """A description of about so many bytes."""
    lines, number = [LEVEL.split("\n", 1)[0]], 0
    total = len(lines[0])
    while total < size - 200 and number < 4000:
        lines.append(f'VARIABLE v{number} {{ LABEL "|en|Variable number {number}|de|Variable Nummer {number}"; HELP "{"x" * (size // 9000)}"; '
                     f'TYPE INTEGER (2) {{ MAX_VALUE {number}; }} }}')
        total += len(lines[-1]) + 1
        number += 1
    return "\n".join(lines) + "\n"


def speed(counts, browser):
    """From a key press to the frame with new faults, on a description of 64 KiB."""
    text = large(64 << 10)
    browser.source(text)
    browser.script("""
        window.times = [];
        const source = window.app.source;
        source.editor.getInputField().addEventListener("keydown", (event) => { window.pressed = event.timeStamp; }, true);
        const look = source.look.bind(source);
        source.look = () => {
            const found = look();
            requestAnimationFrame(() => window.times.push(performance.now() - window.pressed));
            return found;
        };
    """)
    browser.focus_editor(2, 0)
    for letter in "aaaaaaaaaaaaaaaaaaaa":
        before = browser.script("return window.times.length")
        browser.keys(letter)
        browser.until(lambda before=before: browser.script("return window.times.length") > before, "a text that was looked at")
    times = sorted(browser.script("return window.times"))
    middle = times[len(times) // 2]
    counts.check(middle < 50, f"new faults {middle:.0f} ms after a key press")
    browser.open()
    return f"{len(text):,} bytes: new faults {middle:.0f} ms after a key press, at most {times[-1]:.0f} ms"


def longest(counts, browser):
    """The longest text, and one that is longer, keep the page alive."""
    text = large(MOST)
    text += "/*" + "x" * (MOST - len(text.encode()) - 5) + "*/\n"
    start = time.time()
    browser.source(text)
    shown = browser.script("return document.querySelectorAll('#screen .entry').length")
    counts.check(shown > 3000, f"{shown} entries of a text of {len(text):,} bytes")
    seconds = time.time() - start
    browser.source(text + "x")
    browser.sees("source-findings", "refused")
    browser.script("return window.app.example('flow_transmitter')")
    browser.sees("screen", "Calibrate")
    return f"{len(text.encode()):,} bytes in {seconds:.1f} s"


def every_source(counts, browser, program):
    """Each source of the rows: the page says of it what the program says, and no exception comes."""
    all_sources = elsewhere.sources()
    with tempfile.TemporaryDirectory() as room:
        for number, data in enumerate(all_sources):
            expected = elsewhere.expected_of(program, "source", data, room)
            said = browser.bytes("try { return { image: window.app.engine.compile(bytes).toBase64() } }"
                                 "catch (it) { return { refused: it.message } }", data)
            found = {name: expected[name] for name in said if name in expected}
            counts.check(said == found, f"source {number}: {str(said)[:150]}, not {str(expected)[:150]}")
    texts = [it.decode() for it in all_sources if is_text(it)]
    for text in texts:
        browser.source(text)
    counts.check(browser.complaints() == [], "exceptions of sources")
    return f"{len(all_sources)} sources, {len(texts)} of them in the editor"


def is_text(data):
    try:
        data.decode()
    except UnicodeDecodeError:
        return False
    return len(data) < 100_000


def hostile(counts, browser, program):
    listed = [*images.hostile().values(), *images.damaged(program)]
    for number, data in enumerate(listed):
        browser.bytes("window.app.readImage(bytes)", data)
        said = browser.bytes("try { window.app.engine.load(bytes); return '' } catch (it) { return it.message }", data)
        status, lines = images.says(program, "show", data)
        counts.check(said == (elsewhere.refusal(lines) if status else ""), f"image {number}: {said!r}, not {lines[:100]!r}")
    wrong = browser.complaints()
    counts.check(wrong == [], f"exceptions of images: {wrong[:2]}")
    browser.script("return window.app.example('flow_transmitter')")
    browser.sees("screen", "Calibrate")
    return f"{len(listed)} images"


def wild_calls(counts, browser):
    """Each call of the module with numbers that nothing has been given: it answers, and goes on."""
    wrong = browser.script("""
        const calls = window.app.engine.calls, wrong = [];
        for (const name of Object.keys(calls)) {
            const call = calls[name];
            if (typeof call !== "function") continue;
            for (const it of [0, 1, 2, 7, 65535, 2147483647, -1, -2147483648]) {
                if (name === "alloc" && it !== 7) continue;
                if ((name === "free" || name === "close") && it > 0 && it < 7) continue;
                try { call(it, it, it); } catch (error) { wrong.push(`${name}(${it}): ${error}`); }
            }
        }
        for (const it of [2147483647, -1]) { try { calls.alloc(it); } catch (error) { wrong.push(`alloc(${it}): ${error}`); } }
        return wrong""")
    counts.check(wrong == [], f"calls that stopped: {wrong}")
    counts.check(browser.script("return WebAssembly.Module.imports(window.app.engine.module).length") == 0, "the module imports nothing")


def keyboard(counts, browser):
    """A menu, an edit and a method without a pointer."""
    browser.script("return window.app.example('flow_transmitter')")
    browser.sees("screen", "Calibrate")
    browser.script("document.activeElement.blur()")
    for _ in range(60):
        if browser.script("return document.activeElement.innerText.startsWith('Output')"):
            break
        browser.keys(Keys.TAB)
    counts.check(browser.script("return document.activeElement.innerText.startsWith('Output')"), "Tab leads to an entry")
    browser.keys(Keys.ENTER)
    browser.sees("screen", "Automatic")
    browser.keys(Keys.ARROW_DOWN)
    browser.keys(Keys.ENTER)
    browser.until(lambda: not browser.all("#screen form"), "the sheet is left")
    counts.check(browser.script("return document.activeElement.innerText.startsWith('Output')"), "the entry has the focus again")
    browser.keys(Keys.TAB, Keys.TAB)
    browser.script("[...document.querySelectorAll('#screen .entry')].find((it) => it.innerText.startsWith('Calibrate')).focus()")
    browser.keys(Keys.ENTER)
    browser.sees("asked-dialog", "Is the flow steady?")
    browser.keys(Keys.ENTER)
    browser.sees("asked-dialog", "second meter")
    browser.keys("490", Keys.ENTER)
    counts.check(browser.sees("said", "end ended"), "a method by keys alone")


NAMELESS = """
    return [...document.querySelectorAll("button, input, select, [role=tab], [tabindex='0']")].filter((it) => it.offsetParent !== null)
        .filter((it) => !(it.innerText?.trim() || it.ariaLabel || it.getAttribute("aria-label") || it.labels?.length || it.title))
        .map((it) => it.outerHTML.slice(0, 120))"""
FAINT = """
    const parts = (text) => text.match(/[\\d.]+/g).map(Number);
    const light = (rgb) => { const [r, g, b] = rgb.map((it) => it / 255).map((it) => it <= 0.03928 ? it / 12.92 : ((it + 0.055) / 1.055) ** 2.4);
        return 0.2126 * r + 0.7152 * g + 0.0722 * b; };
    const behind = (it) => { for (; it; it = it.parentElement) { const found = parts(getComputedStyle(it).backgroundColor);
        if (found.length < 4 || found[3] > 0) return found.slice(0, 3); } return [255, 255, 255]; };
    const faint = [];
    for (const it of document.querySelectorAll("body *")) {
        const own = [...it.childNodes].some((node) => node.nodeType === 3 && node.textContent.trim());
        if (!own || it.offsetParent === null || it.disabled) continue;
        const ink = light(parts(getComputedStyle(it).color).slice(0, 3)), back = light(behind(it));
        const contrast = (Math.max(ink, back) + 0.05) / (Math.min(ink, back) + 0.05);
        if (contrast < 4.5) faint.push(`${contrast.toFixed(2)} ${it.outerHTML.slice(0, 100)}`);
    }
    return [...new Set(faint)]"""


def looks(counts, browser):
    """Both widths and themes: names for who doesn't see, contrast, nothing beside the page; and pictures."""
    os.makedirs(PICTURES, exist_ok=True)
    browser.script("return window.app.example('flow_transmitter')")
    browser.sees("screen", "Calibrate")
    for width, height in ((1440, 900), (360, 740)):
        browser.size(width, height)
        for theme in ("light", "dark"):
            browser.theme(theme)
            for part in ("texts", "instrument", "more"):
                browser.script("window.app.part(arguments[0]); window.app.source.editor.refresh()", part)
                if width == 360 or part == "instrument":
                    browser.picture(os.path.join(PICTURES, f"{width}_{theme}_{part}.png"))
                what = f"{width} px, {theme}, {part}"
                counts.check(browser.script(NAMELESS) == [], f"{what}: without a name: {browser.script(NAMELESS)}")
                counts.check(browser.script(FAINT) == [], f"{what}: faint: {browser.script(FAINT)}")
                wide = browser.script("return document.documentElement.scrollWidth")
                counts.check(wide <= width, f"{what}: {wide} px wide")
    browser.size(360, 740)
    browser.script("window.app.part('instrument')")
    browser.click("#screen .entry", "Calibrate")
    browser.sees("asked-dialog", "Is the flow steady?")
    browser.picture(os.path.join(PICTURES, "360_dark_dialog.png"))
    counts.check(browser.script(FAINT) == [], f"the dialog: {browser.script(FAINT)}")
    browser.click("#asked-dialog button", "Abort")
    browser.click("#asked-dialog button", "OK")
    browser.size(1440, 900)
    browser.theme("light")


def program_at_hand():
    """The ordinary program, built where it has to be."""
    ran = subprocess.run([os.path.join(repository.TOP, "edd"), "--no-install", "--version"], capture_output=True, text=True, check=False)
    if ran.returncode:
        raise packages.Missing(f"there is no program: {ran.stderr}")
    return os.path.join(repository.MADE, "edd")


def quiet(counts, browser):
    wrong = browser.complaints()
    counts.check(wrong == [], f"what the console says: {wrong[:3]}")


def test(chosen=()):
    """All steps, or those with these words in their names; gives the status."""
    counts = score.Score()
    program = program_at_hand()
    print(f"compared with {os.path.relpath(program, repository.TOP)}")
    sizes = dict(pages.build(pages.OUT))
    print(f"edd.wasm {sizes['edd.wasm']:,} bytes, all files {sizes['all files']:,} bytes")
    with Browser(pages.serve(pages.OUT)) as browser:
        browser.size(1440, 900)
        browser.theme("light")
        browser.open()
        for name, action, *more in (
                ("the first screen", first_example), ("a changed text", changed_text), ("faults", faults), ("editing", editing), ("edits", edits), ("asked bits", asked_bits),
                ("a calibration", to_its_end, program), ("an abort", aborted), ("delays", delays), ("endless methods", endless),
                ("languages", languages),
                ("the image", image_lines), ("texts that are kept", kept_texts), ("the keyboard", keyboard), ("looks", looks),
                ("key presses", speed), ("the longest text", longest), ("sources", every_source, program),
                ("images", hostile, program), ("wild calls", wild_calls), ("the console", quiet)):
            if not chosen or any(it in name for it in chosen):
                counts.step(name, action, browser, *more)
    return counts.end()
