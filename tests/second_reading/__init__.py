"""A second reading of the rules: what the program has to answer, from the words of its specification alone.

It was written apart from the program and from its definitions, and takes nothing from them. It answers slowly and
plainly, by trying all states, all ways and all frames.

- base.py: ids, keys, groups, frames; what a run asks and what it answers. toml.py: the tree of a text, and where the
text has what.
- faults.py: every fault of a base's text; of a text without one its base. words.py: numbers and kinds in words.
- screen.py, screens.py, looks.py: what bytes do to a terminal, which screen is shown, and how its cells look.
- session.py, audit.py, certificate.py, change.py, listing.py, map.py, html.py, lint.py, saved.py: what each command
answers.
- calling.py: what a caller's terminal shows. editions.py: what is found in a folder of editions.
- inputs.py: random bases, certificates and keys.
"""
