"""For tools/desk: a feed of what changed (Atom, RFC 4287)."""
import uuid
import xml.etree.ElementTree as xml

ATOM = 'http://www.w3.org/2005/Atom'
# the characters that XML 1.0 can't have, even escaped
FORBIDDEN = {code: '\ufffd' for code in [*range(32), 0xfffe, 0xffff, *range(0xd800, 0xe000)] if chr(code) not in '\t\n\r'}


def put(parent, tag, text=None, **attributes):
    made = xml.SubElement(parent, f'{{{ATOM}}}{tag}', attributes)
    made.text = None if text is None else text.translate(FORBIDDEN)
    return made


def identity(*words):
    """A permanent id of these words."""
    return uuid.uuid5(uuid.NAMESPACE_URL, ' '.join(words)).urn


def feed_of(address, changes, told, published=''):
    """The feed of the changes of a server at this address, the last one first. What is told of a change is its text and the file of its
    page, if there is one. Links lead from the address at which the folder is published."""
    xml.register_namespace('', ATOM)
    root = xml.Element(f'{{{ATOM}}}feed')
    put(root, 'id', identity(address))
    put(root, 'title', 'Plans: what changed')
    put(root, 'updated', changes[-1].time)
    put(put(root, 'author'), 'name', 'plandesk')
    put(root, 'link', rel='self', type='application/atom+xml', href=f'{published}feed.xml')
    put(root, 'link', rel='alternate', type='text/html', href=f'{published}index.html')
    seen = set()
    for change in reversed(changes):
        own = identity(address, change.time, change.plan, change.what)
        # a plan that was made, deleted and made again within a second has two lines that are the same
        if own not in seen:
            seen.add(own)
            entry(root, own, change, *told(change), published)
    xml.indent(root, ' ')
    return xml.tostring(root, encoding='utf-8', xml_declaration=True) + b'\n'


def entry(root, own, change, text, page, published):
    made = put(root, 'entry')
    put(made, 'id', own)
    put(made, 'title', f'{change.plan}: {change.what}')
    put(made, 'updated', change.time)
    if page:
        put(made, 'link', rel='alternate', type='text/html', href=f'{published}{page}')
    put(made, 'content', text, type='text')
