"""What is tried of the page in a browser. Each trial is a function of this module whose name begins with `try_`; it throws `Failed` where the page shows
anything but what it must."""

import base64
import json
import pathlib
import re
from fractions import Fraction

import model
from chromium import Failed

TOP = pathlib.Path(__file__).resolve().parent.parent
READY = "document.documentElement?.dataset.ready === 'yes'"
EXAMPLES = TOP / "crates/pix_pictures/data"
ROWS = TOP / "crates/pix_cases/data/scripts.txt"
OPERATORS = model.operators((TOP / "docs/FORMATS.md").read_text(encoding="utf-8"))
ORDER = re.findall(r"^row (\w+) =", (TOP / "crates/pix_ops/specs/Operators.antt").read_text(encoding="utf-8"), re.M)
# The pictures of the page in pictures/: whether the page is light or dark, and the first and the last element that each shows.
PICTURES = {"web.png": ("light", "page", "operators"), "web-dark.png": ("dark", "scripts", "text"), "web-sizes.png": ("light", "sizes", "sizes")}
# The roles of what has to have a name.
NAMED = "button slider textbox spinbutton checkbox radio combobox ColorWell img image application meter link region table".split()


def wants(what, made, wanted):
    """Fails where something is not as it must be."""
    if made != wanted:
        raise Failed(f"{what}: {str(made)[:300]!r}, and not {str(wanted)[:300]!r}")


def of(browser, id_, what):
    """Returns a property of an element."""
    return browser.run(f"document.getElementById({json.dumps(id_)}).{what}")


def enter(browser, id_, value):
    """Sets a field as a visitor would, with its event."""
    browser.run(f"""{{ const field = document.getElementById({json.dumps(id_)}); field.value = {json.dumps(value)};
        for (const kind of ['input', 'change']) field.dispatchEvent(new Event(kind, {{ bubbles: true }})); }}""")
    browser.frames()


def canvas(browser, id_):
    """Returns the bytes of a canvas, four a pixel."""
    code = f"""{{ const canvas = document.getElementById({json.dumps(id_)});
        const {{ data }} = canvas.getContext('2d').getImageData(0, 0, canvas.width, canvas.height);
        let text = ''; for (let at = 0; at < data.length; at += 8192) text += String.fromCharCode(...data.subarray(at, at + 8192));
        btoa(text) }}"""
    return base64.b64decode(browser.run(code))


def middle(browser, id_):
    """Brings an element into view, and returns the middle of its box."""
    code = f"""{{ const it = document.getElementById({json.dumps(id_)}); it.scrollIntoView({{ block: 'center' }});
        const box = it.getBoundingClientRect(); [box.x + box.width / 2, box.y + box.height / 2] }}"""
    return browser.run(code)


def shapes(browser, size):
    """Returns the picture of source and destination on a canvas of so many pixels, as the fields say it."""
    made = []
    for side, is_inside in [("source", model.in_square), ("dest", model.in_disc)]:
        x, y, alpha = (int(of(browser, f"{side}-{field}", "value")) for field in ("x", "y", "alpha"))
        color = bytes.fromhex(of(browser, f"{side}-color", "value")[1:])
        made.append(model.shape(is_inside, (x, y), [*color, alpha], of(browser, "is-light", "checked"), size))
    return made


def see_pixels(browser, id_):
    """Waits until a canvas has as many pixels as the screen has under it, and returns how many it is wide and high."""
    browser.wait_for(f"""{{ const it = document.getElementById({json.dumps(id_)}), box = it.getBoundingClientRect();
        [[box.width, it.width], [box.height, it.height]].every(([side, pixels]) => Math.abs(side * devicePixelRatio - pixels) <= 1) }}""", 10)
    browser.wait_for("document.getElementById('operators').dataset.drawn === 'all'")
    return [of(browser, id_, side) for side in ("width", "height")]


def see_operator(browser, id_, name, scheme):
    """Compares a canvas with the picture of an operator, which is made of as many pixels as the screen has there."""
    size, is_light = see_pixels(browser, id_), of(browser, "is-light", "checked")
    rows = [[model.composite(OPERATORS[name], s, d) for s, d in zip(*pair)] for pair in zip(*shapes(browser, size))]
    wanted = model.shown(rows, scheme, is_light, OPERATORS["SrcOver"], model.square_of(size[0]))
    made = canvas(browser, id_)
    if made != wanted:
        at = next(index for index in range(0, len(wanted), 4) if made[index : index + 4] != wanted[index : index + 4])
        wants(f"the pixel {at // 4 % size[0], at // 4 // size[0]} of {id_}, {name}", made[at : at + 4].hex(), wanted[at : at + 4].hex())


def see_operators(browser, scheme="light"):
    """Compares the picture of each operator, and the large one, with those that the fields ask for."""
    wants("the operators", len(ORDER), len(OPERATORS))
    for number, name in enumerate(ORDER):
        see_operator(browser, f"operator-{number}", name, scheme)
    chosen = int(browser.run("document.querySelector('input[name=operator]:checked').value"))
    see_operator(browser, "stage", ORDER[chosen], scheme)


def try_operators(browser):
    """The pictures as they are first, with other alphas, colors and places, and in linear light."""
    see_operators(browser)
    for id_, value in [("source-alpha", "255"), ("dest-alpha", "100"), ("source-color", "#f01e96"), ("dest-x", "-20"), ("source-y", "88")]:
        enter(browser, id_, value)
    see_operators(browser)
    browser.run("document.getElementById('is-light').click()")
    browser.frames()
    see_operators(browser)
    enter(browser, "dest-x", "9999")
    wants("a place beyond the picture", "at 120, 8" in of(browser, "dest-handle", "ariaLabel"), True)


def try_screens(browser):
    """The pictures have the pixels of the screen: where a pixel of the window is one and a half of those, and after the window was made another one."""
    for width, scale in [(900, 1.5), (320, 1), (320, 2)]:
        browser.look(width, scale=scale)
        if width == 320:
            see_operators(browser)
        else:
            see_operator(browser, "operator-3", ORDER[3], "light")
        for id_ in ("words-linear", "words-bytes"):
            wide, high = see_pixels(browser, id_)
            wants(f"the shape of {id_}", 3.6 < wide / high < 3.9, True)


def try_telephone(browser):
    """On a telephone, held upright or lying, the large picture and all operators are on the screen at once, and one that is touched changes the picture.
    The picture stays where sliders are reached, and is dragged by a finger."""
    for width, height in [(390, 844), (320, 568), (844, 390)]:
        browser.look(width, height=height, scale=2, is_telephone=True)
        places = browser.run("""{ const places = () => [document.getElementById('stage'), ...document.querySelectorAll('#choices label')]
                .map((it) => it.getBoundingClientRect()).map((box) => [box.left, box.top, box.right, box.bottom]);
            document.getElementById('stage').scrollIntoView({ block: 'start', behavior: 'instant' });
            places() }""")
        for place in places:
            is_seen = place[0] >= 0 and place[1] >= 0 and place[2] <= width and place[3] <= height
            wants(f"whether what lies at {place} is seen on {width} by {height}", is_seen, True)
        name = ("Xor", "SrcIn", "DestAtop")[width % 3]
        left, top, right, bottom = places[1 + ORDER.index(name)]
        browser.touch((left + right) / 2, (top + bottom) / 2)
        wants("the operator that was touched", name in of(browser, "overlap", "textContent"), True)
        see_operator(browser, f"operator-{ORDER.index(name)}", name, "light")
    browser.look(390, height=844, scale=2, is_telephone=True)
    browser.run("document.getElementById('is-light').scrollIntoView({ block: 'end', behavior: 'instant' })")
    top = of(browser, "stage", "getBoundingClientRect().top")
    wants("whether the picture is seen beside the sliders", -2 <= top < 400, True)


def try_slow_link(browser):
    """What is typed while the page loads stays, as does what is typed while an example comes; the visitor's own script is in the list; the last example that
    was chosen is the one that is shown."""
    mine = "image 2 1\nfill 0 0 2 1 0a0b0c0d\n"
    url = browser.run("location.href")
    browser.link(500)
    browser.open(url, "document.getElementById('operators-part')?.hidden === false")
    type_script(browser, mine)
    browser.wait_for(READY)
    wants("what was typed while the page loaded", [of(browser, "script", "value"), of(browser, "example", "selectedOptions[0].text")], [mine, "your own"])
    browser.run("document.querySelector('#print summary').click()")
    browser.wait_for("document.getElementById('printed').textContent === '0a0b0c0d 0a0b0c0d\\n'")
    enter(browser, "example", "examples/two-pixels.paint")
    browser.wait_for("document.getElementById('printed').textContent === '40806080 00000000\\n'")
    enter(browser, "example", "examples/operators.paint")
    type_script(browser, "clear\n", at_end=True)
    typed = of(browser, "script", "value")
    browser.run("new Promise((done) => setTimeout(done, 1500))")
    wants("what was typed while an example came", [of(browser, "script", "value"), typed.endswith("clear\n")], [typed, True])
    enter(browser, "example", "examples/operators.paint")
    enter(browser, "example", "examples/two-pixels.paint")
    browser.run("new Promise((done) => setTimeout(done, 1500))")
    wants("the example that was chosen last", of(browser, "printed", "textContent"), "40806080 00000000\n")
    enter(browser, "example", "")
    wants("the visitor's own script", of(browser, "script", "value"), typed)


def type_script(browser, text, at_end=False):
    """Types into the field of the script, in the place of what is there or after it."""
    browser.run(f"""{{ const field = document.getElementById('script'); field.focus();
        if ({json.dumps(at_end)}) field.setSelectionRange(field.value.length, field.value.length); else field.select(); 0 }}""")
    browser.ask("Input.insertText", text=text)
    browser.frames()


def try_again(browser):
    """What was typed is there after the page is loaded again."""
    type_script(browser, "image 1 1\n")
    browser.run("document.documentElement.dataset.ready = 'old'")
    browser.ask("Page.reload")
    browser.wait_for(READY)
    wants("the script after the page was loaded again", of(browser, "script", "value"), "image 1 1\n")
    wants("what the list says then", of(browser, "example", "selectedOptions[0].text"), "your own")


def try_sliders(browser):
    """The sliders, by their keys: each tells its number, and the pictures follow."""
    for side in ("source", "dest"):
        before = int(of(browser, f"{side}-alpha", "value"))
        browser.run(f"document.getElementById('{side}-alpha').focus()")
        for key in ("ArrowLeft", "ArrowLeft", "ArrowRight"):
            browser.key(key)
        wants(f"the slider of {side}", of(browser, f"{side}-alpha-said", "textContent"), str(before - 1))
        see_operators(browser)
        browser.key("Home")
        wants(f"the slider of {side} at its start", of(browser, f"{side}-alpha", "value"), "0")
        see_operators(browser)


def try_dragging(browser):
    """Both shapes are dragged by the mouse, and stay where it is let go."""
    for side in ("source", "dest"):
        x, y = middle(browser, f"{side}-handle")
        before = [int(of(browser, f"{side}-{axis}", "value")) for axis in "xy"]
        scale = of(browser, "stage", "getBoundingClientRect().width") / model.WIDTH
        corner = -1 if side == "dest" else 1
        x, y = x + corner * 10 * scale, y + corner * 10 * scale
        browser.mouse("mousePressed", x, y, 1)
        for step in (4, 8, 12):
            browser.mouse("mouseMoved", x + step * scale, y - step * scale, 1)
        browser.mouse("mouseReleased", x + 12 * scale, y - 12 * scale)
        browser.mouse("mouseMoved", x, y)
        browser.frames()
        wants(f"{side} after it was dragged", [int(of(browser, f"{side}-{axis}", "value")) for axis in "xy"], [before[0] + 12, before[1] - 12])
        see_operators(browser)


def try_keys(browser):
    """Shapes, operators and the pixel of a picture are moved by keys alone."""
    browser.run("document.getElementById('source-handle').focus()")
    for key, shift in [("ArrowRight", False), ("ArrowDown", True), ("ArrowLeft", True), ("ArrowUp", False)]:
        browser.key(key, shift)
    wants("the source after four keys", [of(browser, f"source-{axis}", "value") for axis in "xy"], ["37", "35"])
    see_operators(browser)
    browser.run("document.querySelector('input[name=operator]:checked').focus()")
    browser.key("ArrowRight")
    wants("the next operator", "DestOver" in of(browser, "overlap", "textContent"), True)
    see_operators(browser)
    browser.run("document.getElementById('painted').focus()")
    for key, shift in [("ArrowRight", False), ("ArrowDown", True), ("ArrowUp", False)]:
        browser.key(key, shift)
    wants("the pixel after three keys", [of(browser, f"pixel-{axis}", "value") for axis in "xy"], ["31", "29"])


def try_tab(browser):
    """The Tab key goes through all that can be used, in the order of the page, and each has a name for a screen reader."""
    wanted = browser.run("""[...document.querySelectorAll('a, button, input, select, textarea, canvas, summary, [tabindex]')]
        .filter((it) => it.tabIndex >= 0 && it.checkVisibility() && (it.type !== 'radio' || it.checked)).length""")
    seen = []
    for _ in range(wanted):
        browser.key("Tab")
        place, is_marked = browser.run("""{ const it = document.activeElement, at = it.type === 'radio' ? it.parentElement : it;
            const { outlineStyle, boxShadow } = getComputedStyle(at);
            [[...document.querySelectorAll('*')].indexOf(it), outlineStyle !== 'none' || boxShadow !== 'none'] }""")
        wants("whether the focus is seen", is_marked, True)
        seen.append(place)
    wants("the stops of the Tab key", seen, sorted(set(seen)))
    for node in browser.ask("Accessibility.getFullAXTree")["nodes"]:
        role = node.get("role", {}).get("value")
        if not node.get("ignored") and role in NAMED:
            if not node.get("name", {}).get("value", "").strip():
                raise Failed(f"a {role} has no name")


def try_examples(browser):
    """Each example's picture is that of pixpaint, as text and on the canvas, and a fault is told as pixpaint tells it."""
    listed = browser.run("[...document.getElementById('example').options].map((it) => it.text)")
    names = sorted(path.stem for path in EXAMPLES.glob("*.paint"))
    wants("the examples", listed[1:], names)
    wants("what is printed while nobody looks", of(browser, "printed", "textContent"), "")
    browser.run("document.querySelector('#print summary').click()")
    browser.wait_for("document.getElementById('printed').textContent.startsWith('f4e8d0ff ')")
    for name in names:
        wanted = (EXAMPLES / f"{name}.txt").read_text()
        browser.run("document.getElementById('printed').textContent = '?'")
        enter(browser, "example", f"examples/{name}.paint")
        browser.wait_for("document.getElementById('printed').textContent !== '?'")
        is_fault = wanted.startswith("line ")
        wants(name, of(browser, "printed", "textContent"), "" if is_fault else wanted)
        wants(f"the fault of {name}", of(browser, "fault", "textContent"), wanted.rstrip("\n") if is_fault else "")
        wants(f"whether {name} has a picture", of(browser, "picture", "hidden"), is_fault)
        if not is_fault:
            shown = model.shown(model.enlarged(model.parsed(wanted)), "light", False, OPERATORS["SrcOver"])
            wants(f"the canvas of {name}", canvas(browser, "painted").hex(), shown.hex())


def unquoted(text):
    """Returns the bytes of a text of a file of cases."""
    parts = re.sub(r"\\(?:x(..)|(.))", lambda it: chr(int(it[1], 16)) if it[1] else {"n": "\n", "r": "\r", "t": "\t"}[it[2]], text)
    return parts.encode("latin-1")


def try_rows(browser):
    """Each script of the file of cases of pixpaint has its picture, or its fault."""
    rows = re.findall(r'^script: "(.*?)" -> (.*)$', ROWS.read_text(encoding="utf-8"), re.M)
    wants("whether there are scripts", len(rows) > 100, True)
    scripts = [base64.b64encode(unquoted(script)).decode() for script, _ in rows]
    made = browser.run(f"""Promise.all(['library', 'painting'].map((name) => import(`./${{name}}.js`))).then(async ([{{ Library }}, {{ paint, printed }}]) => {{
        const module = await WebAssembly.compile(await (await fetch('pix_c.wasm')).arrayBuffer());
        const library = await Library.of(module);
        const bytes = (text) => Uint8Array.from(atob(text), (letter) => letter.charCodeAt(0));
        return {json.dumps(scripts)}.map((script) => {{
            try {{ return {{ text: printed(paint(library, bytes(script)).image) }}; }}
            catch (fault) {{ return {{ fault: fault.message }}; }}
        }});
    }})""")
    for (script, wanted), answer in zip(rows, made):
        if wanted.startswith("fault"):
            wants(script, answer.get("fault"), wanted.partition(": ")[2])
        else:
            wants(script, answer.get("text"), unquoted(wanted[1:-1]).decode("latin-1"))
    too_long = browser.run("""import('./script.js').then(({ readScript }) => [0, 1].map((more) => {
        try { return readScript(new Uint8Array(1048576 + more).fill(32)).length; } catch (fault) { return fault.message; } }))""")
    wants("the longest script, and one byte more", too_long, [0, "input too long"])


def try_fault(browser):
    """A fault is told with its line while the visitor writes; the button marks the line, and the mended script has its picture again."""
    script = of(browser, "script", "value")
    enter(browser, "script", script.replace("keep", "keeep"))
    line = 1 + script[: script.index("\nkeep")].count("\n") + 1
    wants("the fault", of(browser, "fault", "textContent"), f"line {line}: unknown word")
    wants("whether the field is marked", of(browser, "script", "ariaInvalid"), "true")
    wants("whether there is a picture", of(browser, "picture", "hidden"), True)
    browser.run("document.getElementById('to-fault').click()")
    marked = browser.run("{ const it = document.getElementById('script'); it.value.slice(it.selectionStart, it.selectionEnd) }")
    wants("the marked line", marked, "keeep")
    enter(browser, "script", script)
    wants("the fault of the mended script", [of(browser, "fault", "textContent"), of(browser, "picture", "hidden")], ["", False])
    enter(browser, "script", "image 0 4")
    wants("an image without points", [of(browser, "fault", "textContent"), of(browser, "picture", "hidden")], ["", True])


def effects_at(script, x, y):
    """Returns what each command of a script without copies does to a pixel: its operator, or none where it replaces it, and the color."""
    for words in (line.split() for line in script.splitlines()):
        if words and words[0] in ("fill", "paint"):
            left, top, width, height = (int(word) for word in words[-5:-1])
            if left <= x < left + width and top <= y < top + height:
                yield (words[1] if words[0] == "paint" else None), tuple(bytes.fromhex(words[-1]))


def worked_out(script, x, y):
    """Returns the pixel, the exact one and the budgets after a script without copies, the count of the commands, and whether all are of listed kinds."""
    pixel, exact, budget, count, has_constant_source = (0,) * 4, [Fraction(0)] * 4, (0, 0), 0, True
    for name, color in effects_at(script, x, y):
        count += 1
        if name is None:
            pixel, exact, budget = color, [Fraction(channel) for channel in color], (0, 0)
            continue
        operator = OPERATORS[name]
        pixel, exact, budget = model.composite(operator, color, pixel), model.exactly(operator, color, exact), model.budget(operator, budget)
        has_constant_source &= not model.products(operator)[0]
    return pixel, exact, budget, count, has_constant_source


def places(number):
    """Returns a fraction of four places, rounded down."""
    scaled = number * 10000 // 1
    return f"{scaled // 10000}.{scaled % 10000:04d}"


def try_budget(browser):
    """At each of many pixels, the page tells the pixel, the exact one, how far apart they are and the budget, and the bound of so many commands."""
    script = re.sub(r"^(keep|comp .*)\n", "", of(browser, "script", "value"), flags=re.M)
    script += "paint Src 20 20 9 9 70605080\npaint SrcIn 24 20 9 9 40506070\npaint DestAtop 20 24 9 9 0A0B0C0D\n"
    enter(browser, "script", script)
    for x, y in [(0, 0), (2, 2), (20, 20), (28, 28), (30, 20), (40, 30), (33, 33), (44, 10), (10, 44), (63, 47)]:
        enter(browser, "pixel-x", str(x))
        enter(browser, "pixel-y", str(y))
        pixel, exact, budget, count, has_constant_source = worked_out(script, x, y)
        rows = browser.run("[...document.querySelectorAll('#distance-rows tr')].map((row) => [...row.cells].map((cell) => cell.textContent))")
        for index, row in enumerate(rows):
            apart, most = abs(pixel[index] - exact[index]), Fraction(budget[index == 3], 2)
            wants(f"channel {index} of ({x}, {y})", row[1:5], [str(pixel[index]), places(exact[index]), places(apart), f"{float(most):g}"])
            wants("whether it is within the budget", apart <= most, True)
        bound = of(browser, "bound", "textContent")
        wants("the bound", f"n = {count} unit" in bound if has_constant_source else f"n² + n = {count * count + count} unit" in bound, True)
        steps = browser.run("document.querySelectorAll('#step-rows tr').length")
        wants("the steps", steps, count)


def try_mouse(browser):
    """The pixel under the mouse is the one that is told."""
    x, y = middle(browser, "painted")
    browser.mouse("mouseMoved", x + 0.5, y + 0.5)
    browser.frames()
    wants("the pixel in the middle", [of(browser, f"pixel-{axis}", "value") for axis in "xy"], ["32", "24"])


def try_text(browser):
    """Text is drawn over both bars: clear of an alpha of 0, and otherwise not."""
    pictures = {}
    for alpha in ("0", "255"):
        enter(browser, "words-alpha", alpha)
        for way in ("linear", "bytes"):
            pictures[way, alpha] = canvas(browser, f"words-{way}")
    for way in ("linear", "bytes"):
        bars, words = pictures[way, "0"], pictures[way, "255"]
        wants("how many colors the bars have", len({bars[i : i + 4] for i in range(0, len(bars), 4)}), 12)
        changed = [i for i in range(0, len(bars), 4) if bars[i : i + 4] != words[i : i + 4]]
        wants("whether there are letters", 1000 < len(changed) < len(bars) // 8, True)
        wants("the color of whole letters", bytes([0xD0, 0x10, 0x3C, 255]) in {words[i : i + 4] for i in changed} or way == "linear", True)


def middle_of(browser, name, side, count=64):
    """Returns the bytes of so many rows and columns in the middle of a picture of this side, of which a canvas shows the middle."""
    wide, high = (of(browser, name, each) for each in ("width", "height"))
    data = canvas(browser, name)
    x, y = ((side - count) // 2 - max(0, side - room) // 2 + max(0, room - side) // 2 for room in (wide, high))
    return b"".join(data[4 * ((y + row) * wide + x) :][: 4 * count] for row in range(count))


def try_sizes(browser):
    """At its own size the picture is itself by each filter; at twice that nearest and area have each pixel twice, and linear hasn't; and made smaller they differ."""

    def at(place):
        enter(browser, "size", str(place))
        side = {0: 320, 10: 640, -10: 160}[place]
        return [middle_of(browser, f"sizes-{name}", side) for name in ("nearest", "area", "linear")]

    browser.look(1280)
    code = """{ const copy = Object.assign(document.createElement('canvas'), { width: 320, height: 320 }).getContext('2d');
        copy.drawImage(document.getElementById('leaf'), 0, 0);
        Array.from(copy.getImageData(128, 128, 64, 64).data) }"""
    itself = bytes(browser.run(code))
    wants("which pictures of its own size are the picture", [made == itself for made in at(0)], [True] * 3)
    nearest, area, linear = at(10)
    wants("whether pixels stay sharp", (nearest == area, area == linear), (True, False))
    said = [of(browser, "size-said", "textContent"), browser.run("document.getElementById('size').getAttribute('aria-valuetext')")]
    wants("the size that is said", said, ["200 %", "200 %"])
    seconds = b"".join(nearest[512 * row + 8 * column :][:4] for row in range(32) for column in range(32))
    wants("whether each pixel is there twice", seconds == b"".join(itself[256 * row + 64 :][:128] for row in range(16, 48)), True)
    nearest, area, _ = at(-10)
    wants("whether a pixel is the mean of what it covers", nearest == area, False)


def try_library(browser):
    """A library of another version, with one fact more or of another field is refused."""
    code = """Promise.all([import('./pix/layout.js'), import('./pix/facts.js')]).then(([{ layoutOf }, { CALLS, FACTS }]) => {
        const answer = (index) => index === 0 ? CALLS : index < FACTS.length ? 4 : 0xffffffff;
        const isTaken = (answer) => { try { layoutOf(answer); return true; } catch { return false; } };
        return [isTaken(answer), isTaken((index) => answer(index) + (index === 0)), isTaken((index) => index === FACTS.length ? 4 : answer(index))];
    })"""
    wants("which libraries are taken", browser.run(code), [True, False, False])
    code = """import('./pix/pix.js').then(async ({ clear, compositeColor, copyImage, load }) => {
        const image = (await load('pix_c.wasm')).newImage(2, 2), all = [0, 0, 2, 2];
        const said = (command) => { try { image.run(command()); return 'done'; } catch (error) { return error.status ?? error.message; } };
        return [said(() => copyImage(all, image)), said(() => ({ ...clear(), kind: 99 })), said(() => ({ ...clear(), kind: 3, op: 99 })),
            said(() => compositeColor(all, [0, 0, 0, 0], { op: 99 }))];
    })"""
    refused = ["OVERLAP", "BAD_KIND", "BAD_OP", "99 is no operator: write Op.SrcOver or 'SrcOver'"]
    wants("what is refused", browser.run(code), refused)


def try_looks(browser):
    """Nothing is wider than the window, in light and in dark, and all text stands out from its ground."""
    for scheme in ("dark", "light"):
        for width in (1280, 900, 700, 320):
            browser.look(width, scheme)
            wants(f"the width of the page in {width}", browser.run("document.documentElement.scrollWidth") <= width, True)
            crossed = browser.run("""[...document.querySelectorAll('legend')].filter((it) => it.getClientRects().length !== 1
                || it.offsetHeight > 1.8 * parseFloat(getComputedStyle(it).fontSize)
                || it.getBoundingClientRect().right > it.parentElement.getBoundingClientRect().right).map((it) => it.textContent)""")
            wants(f"the legends that cross their border in {width}", crossed, [])
        colors = browser.run("""['ink', 'soft', 'accent', 'bad', 'ground', 'paper'].map((name) =>
            getComputedStyle(document.documentElement).getPropertyValue(`--${name}`).trim())""")
        *inks, ground, paper = [brightness(color) for color in colors]
        for ink in inks:
            for under in (ground, paper):
                wants(f"whether text stands out in {scheme}", (max(ink, under) + 0.05) / (min(ink, under) + 0.05) >= 4.5, True)
    browser.look(1280, "dark")
    see_operators(browser, "dark")


def brightness(color):
    """Returns the relative luminance of a color of a style, as WCAG has it."""
    levels = [channel / 255 for channel in bytes.fromhex(color[1:])]
    light = [level / 12.92 if level <= 0.04045 else ((level + 0.055) / 1.055) ** 2.4 for level in levels]
    return 0.2126 * light[0] + 0.7152 * light[1] + 0.0722 * light[2]


def take(browser, name):
    """Returns a picture of the page as it is at first."""
    scheme, first, last = PICTURES[name]
    browser.look(1280, scheme)
    browser.open(browser.run("location.href"), READY)
    return browser.picture(first, last)


def try_pictures(browser):
    """The pictures of the page look as those in pictures/, but for a pixel in fifty: another browser or other fonts draw letters a little otherwise."""
    (TOP / "out").mkdir(exist_ok=True)
    for name in PICTURES:
        (TOP / "out" / name).write_bytes(take(browser, name))
        files = [base64.b64encode((TOP / folder / name).read_bytes()).decode() for folder in ("out", "pictures")]
        code = f"""Promise.all({json.dumps(files)}.map(async (file) => {{
            const image = new Image();
            image.src = `data:image/png;base64,${{file}}`;
            await image.decode();
            const context = new OffscreenCanvas(image.width, image.height).getContext('2d');
            context.drawImage(image, 0, 0);
            return context.getImageData(0, 0, image.width, image.height);
        }})).then(([one, two]) => [one.width - two.width, one.height - two.height,
            one.data.filter((channel, at) => Math.abs(channel - two.data[at]) > 32).length / one.data.length])"""
        width, height, share = browser.run(code)
        wants(f"the size of out/{name} beside pictures/{name}", [width, height], [0, 0])
        wants(f"whether out/{name} looks as pictures/{name}", share < 0.02, True)


def try_alone(browser):
    """Everything that the page fetches comes from its own folder."""
    outside = browser.run("performance.getEntriesByType('resource').map((it) => it.name).filter((name) => !name.startsWith(new URL('.', location).href))")
    wants("what is fetched from elsewhere", outside, [])


def try_without_simd(browser):
    """Where WebAssembly has no SIMD, the page says so, shows no field that does nothing, and keeps what needs no library."""
    made = browser.ask("Page.addScriptToEvaluateOnNewDocument", source="WebAssembly.validate = () => false;")
    url = browser.run("location.href")
    browser.open(url, "document.getElementById('state')?.className === 'bad'")
    browser.ask("Page.removeScriptToEvaluateOnNewDocument", identifier=made["identifier"])
    wants("whether it is said", "SIMD" in of(browser, "state", "textContent"), True)
    wants("whether it is an alert", of(browser, "state", "role"), "alert")
    wants_links(browser, False)


def wants_links(browser, is_loaded):
    """Each link at the top leads to something that is shown. What runs the library is shown where it is loaded, and else a sentence in its place."""
    for part in ("operators", "scripts", "text", "sizes"):
        wants(f"whether what runs the library for {part} is shown", of(browser, f"{part}-part", "checkVisibility()"), is_loaded)
        wants(f"whether it is said for {part}", browser.run(f"document.querySelector('#{part} .absent').checkVisibility()"), not is_loaded)
    lost = browser.run("[...document.querySelectorAll('nav a, .absent a')].filter((it) => !document.querySelector(it.hash)?.checkVisibility()).map((it) => it.hash)")
    wants("the links that lead nowhere", lost, [])


def try_links(browser):
    """Each link at the top of the page leads to its part."""
    wants_links(browser, True)


def try_a_module_that_is_missing(browser):
    """Where the module isn't there, the page says so."""
    source = "{ const real = fetch; window.fetch = (file) => real(`${file}`.replace('pix_c', 'none')); }"
    made = browser.ask("Page.addScriptToEvaluateOnNewDocument", source=source)
    url = browser.run("location.href")
    browser.open(url, "document.getElementById('state')?.className === 'bad'")
    browser.ask("Page.removeScriptToEvaluateOnNewDocument", identifier=made["identifier"])
    wants("what is said", of(browser, "state", "textContent").startswith("The library could not be loaded"), True)
    browser.faults.clear()


def try_as_a_file(browser):
    """Where the page is opened as a file, which loads no module, it says so, with the folder that has to be served."""
    browser.open((browser.folder / "index.html").as_uri(), "document.getElementById('state')?.className === 'bad'")
    said = of(browser, "state", "textContent")
    wants("whether it says what to do", "opened as a file" in said and f"python3 -m http.server -d '{browser.folder}/'" in said, True)
    wants("whether it is an alert", of(browser, "state", "role"), "alert")
    wants_links(browser, False)
    browser.faults.clear()


def try_a_part_that_is_missing(browser):
    """Where a script of the page doesn't come, the page says so; where an example doesn't, that, and what was typed stays."""
    url = browser.run("location.href")
    browser.lose("history.js")
    browser.open(url, "document.getElementById('state')?.className === 'bad'")
    wants("what is said", of(browser, "state", "textContent").startswith("A part of the page could not be loaded"), True)
    browser.lose("two-pixels.paint")
    browser.open(url, READY)
    script = of(browser, "script", "value")
    browser.run("document.getElementById('example').add(new Option('none', 'examples/none.paint'))")
    for name in ("two-pixels", "none"):
        browser.run("document.getElementById('fault').textContent = ''")
        enter(browser, "example", f"examples/{name}.paint")
        browser.wait_for("document.getElementById('fault').textContent.startsWith('The example could not be loaded')", 20)
        wants("the script after an example that is missing", of(browser, "script", "value"), script)
    browser.faults.clear()


def all_trials():
    """Returns each trial with its name, in the order of this file."""
    return [(name[4:].replace("_", " "), it) for name, it in globals().items() if name.startswith("try_")]
