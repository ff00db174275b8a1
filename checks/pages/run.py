#!/usr/bin/env python3
"""Opens the page of each store of examples/ in a real browser, and holds it to the text that is told of the same store.

    checks/pages/run.py PROGRAM [FOLDER] [--node-sim PROGRAM]

PROGRAM is `bulwynef`; FOLDER is where the pages, their pictures and their prints go (a new one below /tmp if none is given). With
`node_sim`, the page of a proof of each node that a store exposes is opened too. It builds nothing. Debian's chromium is installed where
no browser is there.

A page is held to this: it runs nothing, asks for nothing and links to nothing but itself; it has a language, a title, and what the
picture shows in tables too; its sentences are those of the text; the entries that are marked in the picture are those that the sentences
name, each with a shape and a link to its sentence; in light and in dark each text stands out from its ground; and a window of 360 pixels
opens the picture at its first marked entry, with the names of the nodes beside it.
"""
import argparse, os, re, subprocess, sys, tempfile

sys.dont_write_bytecode = True

from browser import Browser

HERE = os.path.dirname(os.path.abspath(__file__))
EXAMPLES = os.path.join(HERE, '..', '..', 'examples')

# What is asked of a page in the browser.
FACTS = r'''(() => {
  const all = (selector) => [...document.querySelectorAll(selector)];
  const attributes = all('*').flatMap((e) => [...e.attributes].map((a) => [e.localName, a.name, a.value]));
  const text = (e) => e.textContent.trim();
  return {
    lang: document.documentElement.lang,
    mode: document.compatMode,
    title: document.title,
    tags: [...new Set(all('*').map((e) => e.localName))],
    attributes,
    ids: all('[id]').map((e) => e.id),
    summary: text(document.querySelector('.summary')),
    basis: all('.basis dt').map((dt) => [text(dt), text(dt.nextElementSibling)]),
    policy: document.querySelector('meta[http-equiv=Content-Security-Policy]').content,
    lines: all('pre.lines').map((pre) => pre.textContent),
    nodes: all('section.node').map((s) => ({
      heading: text(s.querySelector('h2')),
      sentences: [...s.querySelectorAll('.sentences > li')].map((li) => ({
        id: li.id,
        text: [...li.childNodes].filter((n) => n.nodeType === 3).map((n) => n.data).join('').trim(),
        marks: [...li.querySelectorAll('a.mark')].map((a) => a.getAttribute('href')),
      })),
    })),
    marked: all('svg .marked').map((g) => ({
      id: g.id, node: +g.dataset.node, seq: +g.dataset.seq, link: g.closest('a') && g.closest('a').getAttribute('href'),
      shape: !!g.querySelector('.flag'), title: text(g.querySelector('title')),
    })),
    entries: all('svg .entry').map((g) => ({id: g.id, title: text(g.querySelector('title'))})),
    rows: all('table tbody tr').map((tr) => tr.querySelector('th a').getAttribute('href')),
    labels: all('svg[role=img]').map((s) => s.getAttribute('aria-labelledby').split(' ').map((id) => text(document.getElementById(id)))),
    wide: document.documentElement.scrollWidth > document.documentElement.clientWidth,
    ground: getComputedStyle(document.body).backgroundColor,
    ink: getComputedStyle(document.body).color,
    texts: all('h1,h2,p,li,td,th,:not(svg) a:not(svg a),summary,code,span,strong,svg text').filter((e) => e.textContent.trim()).map((e) => {
      const style = getComputedStyle(e);
      return [e.namespaceURI.endsWith('svg') ? style.fill : style.color, groundOf(e), e.textContent.trim().slice(0, 30)];
    }),
  };
  // The colour behind an element: of the box of an entry, or of the nearest element that has one.
  function groundOf(e) {
    const entry = e.closest('.entry');
    if (entry && e.classList.contains('sign')) return getComputedStyle(entry.querySelector('.flag')).fill;
    if (entry) return getComputedStyle(entry.querySelector('.box')).fill;
    if (e.classList.contains('sign') && e.closest('svg')) return getComputedStyle(e.parentNode.querySelector('.flag')).fill;
    if (e.closest('svg')) return getComputedStyle(document.querySelector('.band')).fill;
    for (let at = e; at; at = at.parentElement) {
      const ground = getComputedStyle(at).backgroundColor;
      if (ground !== 'rgba(0, 0, 0, 0)') return ground;
    }
    return 'rgb(255, 255, 255)';
  }
})()'''

# What is asked of it on a phone: whether the first marked entry is in sight beside the names of the nodes, and how many stops of the tab key
# a table has.
NARROW = r'''(() => {
  const scroll = document.querySelector('.scroll'), names = document.querySelector('.names'), marked = document.querySelector('svg .marked .box');
  const at = (e) => e.getBoundingClientRect();
  return {
    wide: document.documentElement.scrollWidth > document.documentElement.clientWidth,
    names: !names || Math.abs(at(names).left - at(scroll).left) < 2,
    marked: !marked || (at(marked).left >= at(names).right - 2 && at(marked).right <= at(scroll).right + 2),
    stops: Math.max(0, ...[...document.querySelectorAll('.scroll')].map((e) => e.querySelectorAll('a:not([tabindex="-1"]), summary, [tabindex="0"]').length)),
  };
})()'''

ALLOWED = set('html head meta title style body header main nav section h1 h2 p ul li a span strong code div details summary dl dt dd pre '
              'table thead tbody tr th td svg g rect path text desc'.split())


def need(holds, *what):
    if not holds:
        raise SystemExit('checks/pages/run.py: ' + ' '.join(str(w) for w in what))


def inputs():
    """Each store of each example, behind its directory: its name and the two lines."""
    for name in sorted(os.listdir(EXAMPLES)):
        if not name.endswith('.txt') or name == 'scenario.txt':
            continue
        with open(os.path.join(EXAMPLES, name)) as lines:
            directory, *stores = lines.read().split()
        for i, store in enumerate(stores):
            suffix = f'-{i}' if len(stores) > 1 else ''
            yield name[:-4] + suffix, f'{directory}\n{store}\n'.encode()


def said(program, text, *words):
    ran = subprocess.run([program, *words], input=text, stdout=subprocess.PIPE)
    need(ran.returncode == 0, program, *words, 'ended with', ran.returncode)
    return ran.stdout


def explained(program, text, what, *words):
    """What is written of the two lines, each in a file of its own."""
    with tempfile.TemporaryDirectory() as folder:
        names = [os.path.join(folder, str(number)) for number in range(2)]
        for name, line in zip(names, text.split()):
            with open(name, 'wb') as out:
                out.write(bytes.fromhex(line.decode()))
        evidence = ['--proof', names[1]] if what == 'proof' else [names[1]]
        ran = subprocess.run([program, 'explain', '--program', 'tally', '--directory', names[0], *words, *evidence], stdout=subprocess.PIPE)
    need(ran.returncode in (0, 3), program, *words, 'ended with', ran.returncode)
    return ran.stdout


def nodes_of(text):
    """The basis, the heading, and of each node its number, its indication and its sentences, as the text tells them."""
    *basis, heading = text.decode().splitlines()[:4]
    lines = text.decode().splitlines()[4:]
    nodes = []
    for line in lines:
        if line.startswith(' '):
            nodes[-1][2].append(line.strip())
        else:
            number, indication = line.split(' ')[:2]
            nodes.append((int(number), indication, []))
    return [line.split(': ', 1) for line in basis], heading, nodes


def brightness(colour):
    parts = [int(p) / 255 for p in re.findall(r'\d+', colour)[:3]]
    parts = [p / 12.92 if p <= 0.03928 else ((p + 0.055) / 1.055) ** 2.4 for p in parts]
    return 0.2126 * parts[0] + 0.7152 * parts[1] + 0.0722 * parts[2]


def contrast(one, other):
    low, high = sorted([brightness(one), brightness(other)])
    return (high + 0.05) / (low + 0.05)


def hold_alone(name, page, asked, complaints, facts):
    """That the page stands alone: it runs nothing and asks for nothing, and each link of it leads to one place in it."""
    text = page.decode()
    for word in ['http:', 'https:', 'url(', '@import', '<script', 'javascript:', '<!--']:
        need(word not in text, name, 'has', word)
    need(len(asked) == 1 and asked[0].startswith('file:'), name, 'asks for', asked)
    need(not complaints, name, complaints)
    need(set(facts['tags']) <= ALLOWED, name, 'has', set(facts['tags']) - ALLOWED)
    for tag, attribute, value in facts['attributes']:
        need(not attribute.startswith('on') and attribute not in ('src', 'style', 'srcset', 'action'), name, tag, attribute)
        if attribute == 'href':
            need(value.startswith('#') and value[1:] in facts['ids'], name, 'links to', value)
    need(len(set(facts['ids'])) == len(facts['ids']), name, 'has an id twice')
    need(facts['policy'].startswith("default-src 'none';"), name, 'has the policy', facts['policy'])


def hold_form(name, page, facts):
    """That it is a page for everybody: its language, its title, what the picture is called, and the same in tables."""
    need(facts['mode'] == 'CSS1Compat' and facts['lang'] == 'en' and facts['title'], name, facts['mode'], facts['lang'])
    for word in [b'<!DOCTYPE html>', b'prefers-color-scheme:dark', b'@media print', b'color-scheme:light dark']:
        need(word in page, name, 'lacks', word)
    need(facts['labels'] and all(all(label) for label in facts['labels']), name, 'has a picture without a name')
    need(sorted('#' + e['id'] for e in facts['entries']) == sorted(facts['rows']), name, 'has other tables than the picture')
    need(all(e['title'] for e in facts['entries']), name, 'has an entry without a title')
    need(not facts['wide'], name, 'is wider than the window')


def hold_text(name, text, facts):
    """That it says what the text says, and marks the entries that these sentences name."""
    basis, heading, nodes = nodes_of(text)
    need(facts['basis'] == basis, name, facts['basis'], 'is not', basis)
    need(facts['summary'] == heading, name, facts['summary'], 'is not', heading)
    order = ['exposed', 'suspected', 'trusted']
    nodes.sort(key=lambda node: order.index(node[1]))
    shown = [n for n in facts['nodes'] if len(n['heading'].split()) > 2]
    need(len(shown) == len(nodes), name, 'has', len(shown), 'nodes and not', len(nodes))
    linked = set()
    for (number, indication, sentences), node in zip(nodes, shown):
        words = node['heading'].split()
        need(words[:2] == ['Node', str(number)] and words[3] == indication, name, node['heading'], number, indication)
        need([s['text'] for s in node['sentences']] == sentences, name, [s['text'] for s in node['sentences']], sentences)
        for sentence in node['sentences']:
            for mark in sentence['marks']:
                at, seq = map(int, mark.split('-')[1:3])
                linked.add((at, seq))
                need(re.search(rf'\b{seq}\b', sentence['text']), name, sentence['text'], 'marks', seq)
        need(indication != 'exposed' or any(s['marks'] for s in node['sentences']), name, 'exposes', number, 'by nothing that is marked')
    need({(m['node'], m['seq']) for m in facts['marked']} == linked, name, 'marks', facts['marked'], 'and not', linked)
    ids = {s['id']: s for n in shown for s in n['sentences']}
    for mark in facts['marked']:
        sentence = ids[mark['link'][1:]]
        need(f'#entry-{mark["node"]}-{mark["seq"]}' in sentence['marks'], name, mark, 'is linked with', sentence)
        need(mark['shape'], name, mark, 'has no shape')


def hold_colours(name, scheme, facts):
    """That each text stands out from what is behind it (WCAG 2: 4.5 to 1)."""
    bright = brightness(facts['ground'])
    need((bright > 0.5) == (scheme == 'light'), name, scheme, 'has the ground', facts['ground'])
    for ink, ground, text in facts['texts']:
        need(contrast(ink, ground) >= 4.5, name, scheme, text, ink, 'on', ground, round(contrast(ink, ground), 2))


def hold_narrow(browser, folder, name, path):
    """That a phone shows it without being wider than the window, and opens the picture at the first marked entry."""
    browser.open(path, 'light', 360)
    facts = browser.value(NARROW)
    need(not facts['wide'], name, 'is wider than a phone')
    need(facts['names'], name, 'has its names out of sight on a phone')
    need(facts['marked'], name, 'opens without its marked entry in sight on a phone')
    need(facts['stops'] == 0, name, 'has', facts['stops'], 'stops in a picture or a table')
    browser.picture(os.path.join(folder, f'{name}-phone.png'))


def look(browser, program, folder, name, text, what):
    """Opens the page of an input, and gives the text of the same."""
    page = explained(program, text, what, '--html', '-')
    path = os.path.join(folder, name + '.html')
    with open(path, 'wb') as out:
        out.write(page)
    told = explained(program, text, what)
    lines = [text.decode()] if what == 'proof' else []
    for scheme in ['light', 'dark']:
        asked, complaints = browser.open(path, scheme)
        facts = browser.value(FACTS)
        hold_alone(name, page, asked, complaints, facts)
        hold_form(name, page, facts)
        hold_text(name, told, facts)
        need(facts['lines'] == lines, name, 'has other lines than the input')
        hold_colours(name, scheme, facts)
        browser.picture(os.path.join(folder, f'{name}-{scheme}.png'))
    hold_narrow(browser, folder, name, path)
    browser.open(path, 'light')
    need(browser.print(os.path.join(folder, name + '.pdf')) >= 1, name, 'prints on no sheet')
    return told


def proofs_of(node_sim, text, told):
    """Of each node that is exposed the directory and a proof."""
    directory = text.split(b'\n')[0]
    for number, indication, _ in nodes_of(told)[2]:
        if indication == 'exposed':
            yield number, directory + b'\n' + said(node_sim, text, 'prove', str(number))


def look_at_all(browser, program, folder, node_sim):
    """Opens each page, and gives how many they were."""
    count = 0
    for name, text in inputs():
        told = look(browser, program, folder, name, text, 'store')
        count += 1
        for number, proof in proofs_of(node_sim, text, told) if node_sim else []:
            look(browser, program, folder, f'{name}-proof-{number}', proof, 'proof')
            count += 1
    return count


def main():
    words = argparse.ArgumentParser(description=__doc__, formatter_class=argparse.RawDescriptionHelpFormatter)
    words.add_argument('program')
    words.add_argument('folder', nargs='?')
    words.add_argument('--node-sim')
    words = words.parse_args()
    program = os.path.abspath(words.program)
    folder = words.folder or tempfile.mkdtemp(prefix='pages-')
    os.makedirs(folder, exist_ok=True)
    browser = Browser()
    try:
        count = look_at_all(browser, program, folder, words.node_sim and os.path.abspath(words.node_sim))
    finally:
        browser.close()
    need(count > 0, 'no example')
    print(f'{count} pages agree with their texts; pictures are in {folder}')


if __name__ == '__main__':
    main()
