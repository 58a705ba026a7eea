"""The site of the documents, which tools/site makes of a clean clone: in under a minute, with every link leading
somewhere, a link behind each command that a page shows, and the page on its front. In a browser it opens from the
disk: navigation, search, and commands that open in the page with the program's answer."""
import html
import os
import re
import time
import urllib.parse

import documents
import places
import pytest
from browser import Browser, browser_at_hand
from firefox import Firefox, firefox_at_hand

SECONDS = 60
# How many of the commands are opened in the browser.
OPENED = 12


@pytest.fixture(scope="module")
def site(clone, tmp_path_factory, needs):
    """The site of a clean clone, made once; and how many seconds of the processor that took."""
    needs("mkdocs")
    to = str(tmp_path_factory.mktemp("site") / "site")
    with places.Spent() as spent:
        ran = places.run([os.path.join(clone, "tools", "site"), "--to", to], path=os.environ["PATH"], seconds=600)
    assert ran.returncode == 0, ran.stderr
    assert ran.stdout == os.path.join(to, "index.html") + "\n"
    return to, spent.seconds


@pytest.fixture(scope="module")
def texts(site):
    """The pages of the site by their paths, but for the page in the browser."""
    found = {}
    for folder, _, names in os.walk(site[0]):
        for name in names:
            path = os.path.relpath(os.path.join(folder, name), site[0])
            if name.endswith(".html") and path != "page/hithwelor.html":
                with open(os.path.join(folder, name), encoding="utf-8") as file:
                    found[path] = file.read()
    return found


def test_it_is_made_within_a_minute(site):
    assert site[1] < SECONDS


def test_all_documents_are_there(texts):
    wanted = {re.sub(r"README\.md$", "index.md", it) for it in documents.pages() if it.startswith("docs/")}
    made = {f"docs/trust/{it}.md" for it in ("proved", "calls", "every-definition", "headline-definitions")}
    assert {it[:-3] + ".html" for it in wanted | made} <= set(texts)


def test_every_link_leads_somewhere(site, texts):
    names = {path: set(re.findall(r'\bid="([^"]*)"', text)) for path, text in texts.items()}
    wrong = []
    for path, text in texts.items():
        for address in re.findall(r'(?:href|src)="([^"]*)"', text):
            place, _, head = urllib.parse.unquote(html.unescape(address)).partition("#")
            target = os.path.normpath(os.path.join(os.path.dirname(path), place)) if place else path
            if re.match(r"[a-z]+:", address):
                continue
            if not os.path.exists(os.path.join(site[0], target)) or head and head not in names.get(target, {head}):
                wrong.append((path, address[:80]))
    assert not wrong


def openers(text):
    """The links of a page of the site that open commands: what stands behind the # of each."""
    found = re.findall(r'<a class="open" href="([^"]*)"', text)
    return [urllib.parse.parse_qs(html.unescape(it).partition("#")[2], keep_blank_values=True) for it in found]


def test_each_shown_command_has_its_link(texts):
    """As many, in their order, as the page shows of exact forms; what a filter does behind the program, the page leaves out."""
    for page in documents.pages():
        path = re.sub(r"README\.md$", "index.md", page)[:-3] + ".html"
        if path in texts:
            stages = [documents.stages_of(it.command) for it in shown(page)]
            wanted = [" | ".join(" ".join(run[1:]) for run in runs) for _, runs, _ in stages]
            assert [it["c"][0] for it in openers(texts[path])] == wanted, page


def shown(page):
    """The commands that a page shows, blocks and rows in the order in which they stand, that run the program."""
    examples = [it for block in documents.examples_of(page) for it in block]
    return [it for it in examples if documents.has_program(it.command) and documents.PEOPLE not in it.command]


ANSWERED = "document.getElementById('k-said')?.textContent.startsWith('status')"


def waited(browser, expression, seconds=90):
    until = time.monotonic() + seconds
    while not browser.ask(f"Boolean({expression})"):
        assert time.monotonic() < until, expression
        time.sleep(0.1)


@pytest.mark.browser
def test_it_opens_from_the_disk(site, texts):
    if not browser_at_hand():
        pytest.skip("no Chromium is installed: tools/setup")
    with Browser(browser_at_hand()) as browser:
        browser.open(os.path.join(site[0], "index.html"), 1280, 900)
        assert browser.ask("document.querySelectorAll('nav h2').length") == 4
        assert browser.ask("document.querySelector('iframe.live').src").endswith("page/hithwelor.html")
        for word, place in (("retrace", "docs/learn/"), ("MachineHeadline", "docs/trust/"), ("zzzzz", None)):
            browser.ask(f"document.getElementById('search').value = '{word}'; search(); 0")
            found = browser.ask("[...document.querySelectorAll('#found a')].map(it => it.href)")
            assert bool(found) == bool(place) and (not place or any(place in it for it in found)), word
        assert browser.ask("around('1 < 60', ['60'])") == "1 &#60; <mark>60</mark>…"
        browser.ask("document.querySelector('nav li:nth-child(2) a').click(); 0")
        waited(browser, "document.readyState === 'complete' && location.pathname.includes('/docs/learn/')")
        assert browser.ask("document.querySelector('nav [aria-current]') !== null")
        assert not browser.faults()
        browser.ask("document.querySelector('.turn .next').click(); 0")
        waited(browser, "document.readyState === 'complete' && document.querySelector('h1')")
        assert not browser.faults()


@pytest.mark.browser
@pytest.mark.engine
def test_commands_open_in_the_page(site, texts, module):
    if not browser_at_hand():
        pytest.skip("no Chromium is installed: tools/setup")
    found = [it for _, text in sorted(texts.items()) for it in openers(text) if len(it.get("i", [""])[0]) < 4000]
    chosen = found[:: max(1, len(found) // OPENED)]
    with Browser(browser_at_hand()) as browser:
        for it in chosen:
            text, status = it.get("i", [""])[0].encode(), 0
            answer = documents.answers_by(module)
            for words in it["c"][0].split(" | "):
                ((text, status),) = answer([(["./workbench", *words.split(" ")], text)])
            address = urllib.parse.urlencode(
                {name: value[0] for name, value in it.items()}, quote_via=urllib.parse.quote
            )
            browser.call("Page.navigate", url="about:blank")
            browser.call("Page.navigate", url=f"file://{site[0]}/page/hithwelor.html#{address}")
            waited(browser, ANSWERED)
            said = browser.ask("document.getElementById('k-said').textContent")
            seen = browser.ask("document.getElementById('k-text').textContent")
            lines = text.decode().split("\n")
            assert said.startswith(f"status {status}") and seen.split("\n")[:240] == lines[:240], it["c"]


@pytest.mark.browser
@pytest.mark.slow
def test_it_opens_in_firefox(site):
    if not firefox_at_hand():
        pytest.skip("no Firefox is installed: tools/setup")
    with Firefox(firefox_at_hand()) as browser:
        browser.go(f"file://{site[0]}/index.html")
        browser.ask("(document.getElementById('search').value = 'rotary', search(), 0)")
        assert browser.ask("document.querySelectorAll('#found a').length") > 3


def test_what_is_something_else_is_left_alone(clone, tmp_path, needs):
    needs("mkdocs")
    places.write(str(tmp_path / "mine.txt"), "mine\n")
    ran = places.run([os.path.join(clone, "tools", "site"), "--to", str(tmp_path)], path=os.environ["PATH"])
    assert ran.returncode == 1 and "has something else in it" in ran.stderr and ran.stderr.count("\n") == 1


def test_without_mkdocs_it_says_so(clone, machine, tmp_path):
    ran = places.run(
        [os.path.join(clone, "tools", "site"), "--to", str(tmp_path / "site")],
        path=machine(lacks=["rt", "node"], mkdocs="#!/bin/sh\nexit 127\n"),
    )
    assert ran.returncode == 1 and ran.stderr.startswith("tools/site: ") and "Traceback" not in ran.stderr
