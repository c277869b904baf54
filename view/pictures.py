"""Writes the pictures of docs/pictures/: the page in a headless Chromium, at lines of journals of examples/."""
import os
import time

import browser

HERE = os.path.dirname(os.path.abspath(__file__))
FOLDER = os.path.join(HERE, '..', 'docs', 'pictures')

# Name, journal, the first line with these words, the chosen link, width, height, dark or not, the filter.
PICTURES = [
    ('view-splice', 'to_begin_with/two_peers', 'b peer.1.1', 'adv.2.1', 1280, 720, False, ''),
    ('view-fall', 'to_begin_with/two_peers', '- filt.1 10.0.0.0/8', 'best', 1280, 720, False, ''),
    ('view-table', 'sessions/comes_in_the_middle', '= adv.2.1', 'adv.2.1', 1280, 760, True, ''),
    ('view-filter', 'sessions/comes_in_the_middle', '+ ext', 'fib', 1280, 760, False, '10.1.0.0/16'),
]


def write(program):
    """Writes them all, and says how large each is."""
    os.makedirs(FOLDER, exist_ok=True)
    for name, journal, words, link, width, height, dark, found in PICTURES:
        path = os.path.join(HERE, '..', 'examples', journal + '.out')
        with open(path, encoding='ascii') as file:
            line = next(number for number, text in enumerate(file, 1) if text.startswith(words))
        with browser.Browser(program, width, height, dark) as page:
            page.open(os.path.join(HERE, 'index.html'))
            page.drop(path)
            page.wait('view.journal !== null')
            if found:
                page.ask('document.querySelector("#filter").value = "%s"; view.setFilter("%s")' % (found, found))
            page.ask('view.go(%d); view.choose("%s"); view.go(%d)' % (line - 1, link, line))
            time.sleep(1.5)
            target = os.path.join(FOLDER, name + '.png')
            page.picture(target)
            print('%s.png: %s:%d, %d bytes' % (name, journal, line, os.path.getsize(target)))
