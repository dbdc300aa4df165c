"""For tools/plan and tools/audit: the text that a file's bytes are, or a refusal that names what else the file is."""
import codecs, csv, io, sys, zipfile, zlib

from audit import Refused

LARGEST = 256 << 20
# what files begin with that are no text
BEGINNINGS = ((b'%PDF-', 'pdf'), (b'\x1f\x8b', 'gzip'), (b'BZh', 'bzip2'), (b'\xfd7zXZ\x00', 'xz'), (b'7z\xbc\xaf\x27\x1c', '7z'),
              (b'\xd0\xcf\x11\xe0\xa1\xb1\x1a\xe1', 'xls'), (b'SQLite format 3\x00', 'sqlite'), (b'PAR1', 'parquet'))
MARKUP = ('<', 'html'), ('{', 'json'), ('[', 'json')
# kinds of changes, as they are told
MARK, WIDE, LATIN = 'byte order mark taken off', 'file turned from UTF-16', 'file read as Latin-1'
CRLF, CR, LAST = 'line ends turned from CR LF', 'line ends turned from CR', 'line end put after the last line'
# what a system puts into a zip besides what somebody packed
NOT_PACKED = '__MACOSX/', '.'
# so many names stand in a fault's line
NAMES = 12


def short(text):
    """What stands in a fault's line of a text that came from outside."""
    found = ''.join(sign if ' ' <= sign <= '~' else '?' for sign in text.strip()[:41])
    return found if len(found) <= 40 else f'{found[:38]}..'


def quoted(texts):
    """Texts that came from outside, as a fault's line names them."""
    more = [f'and {len(texts) - NAMES} more'] if len(texts) > NAMES else []
    return ' '.join([*(f"'{short(text)}'" for text in texts[:NAMES]), *more])


def bytes_of(path):
    """The bytes of a file, or of standard input."""
    try:
        if path == '-':
            found = sys.stdin.buffer.read(LARGEST + 1)
        else:
            with open(path, 'rb') as file:
                found = file.read(LARGEST + 1)
    except (OSError, ValueError):
        raise Refused('Unreadable') from None
    if len(found) > LARGEST:
        raise Refused('TooLarge')
    return found


def archive_kind(data):
    """A zip file that is a spreadsheet, or another one."""
    try:
        with zipfile.ZipFile(io.BytesIO(data)) as archive:
            names = archive.namelist()
    except (zipfile.BadZipFile, ValueError, NotImplementedError):
        return 'zip'
    if any(name.startswith('xl/') for name in names):
        return 'xlsx'
    return 'ods' if 'mimetype' in names and 'content.xml' in names else 'zip'


def kind_of(data):
    """What the bytes are if they are no text."""
    if data.startswith((b'PK\x03\x04', b'PK\x05\x06')):
        return archive_kind(data)
    if data.startswith((codecs.BOM_UTF32_LE, codecs.BOM_UTF32_BE)):
        return 'utf-32'
    found = next((kind for beginning, kind in BEGINNINGS if data.startswith(beginning)), None)
    if found is None and not data.startswith((codecs.BOM_UTF16_LE, codecs.BOM_UTF16_BE)) and b'\x00' in data:
        return 'binary'
    return found


def chosen(names, part):
    """The one name that is meant: the one that is given, or the only one."""
    if part is not None:
        found = [name for name in names if part in (name, name.rpartition('/')[2])]
        if len(found) != 1:
            raise Refused(f"{'ManyParts' if found else 'NoPart'} {quoted(found or names)}".rstrip())
        return found[0]
    if len(names) != 1:
        raise Refused(f'ManyParts {quoted(names)}' if names else 'NoPart')
    return names[0]


def unpacked(data, part, changes):
    """The bytes of the one file in a zip."""
    try:
        with zipfile.ZipFile(io.BytesIO(data)) as archive:
            names = [name for name in archive.namelist()
                     if not name.endswith('/') and not name.startswith(NOT_PACKED) and '/.' not in name]
            name = chosen(names, part)
            with archive.open(name) as file:
                found = file.read(LARGEST + 1)
    # a file that is cut, or locked by a password, or packed by a way that Python doesn't know
    except (zipfile.BadZipFile, zlib.error, EOFError, OSError, ValueError, RuntimeError):
        raise Refused('BadArchive zip') from None
    if len(found) > LARGEST:
        raise Refused('TooLarge')
    changes[f'file {short(name)} taken out of a zip'] += 1
    return found


def cell_text(value):
    """What a cell of a spreadsheet shows; a number without a fraction has none."""
    if value is None:
        return ''
    if isinstance(value, float) and value.is_integer():
        return str(int(value))
    return ' '.join(str(value).splitlines())


def some_sheet(book, part):
    """The sheet that is given, or the only one that has a value."""
    sheets = {sheet.title: sheet for sheet in book.worksheets}
    if part is not None:
        return sheets[chosen(list(sheets), part)]
    return sheets[chosen([title for title, sheet in sheets.items()
                          if any(value is not None for row in sheet.iter_rows(values_only=True) for value in row)], None)]


def sheet_text(data, part, changes):
    """The rows of a sheet of a spreadsheet, with commas."""
    try:
        import openpyxl
    except ImportError:
        raise Refused('NoModule openpyxl', 2) from None
    said = io.StringIO()
    rows = csv.writer(said, lineterminator='\n')
    try:
        book = openpyxl.load_workbook(io.BytesIO(data), read_only=True, data_only=True)
        sheet = some_sheet(book, part)
        for row in sheet.iter_rows(values_only=True):
            rows.writerow([cell_text(value) for value in row])
            if said.tell() > LARGEST:
                raise Refused('TooLarge')
    except Refused:
        raise
    # what the module raises for a file that is cut or damaged is no part of its promises
    except Exception:
        raise Refused('BadArchive xlsx') from None
    changes[f'sheet {short(sheet.title)} taken out of a spreadsheet'] += 1
    return said.getvalue()


def decoded(data, changes):
    """The characters of these bytes; how they were read is counted."""
    for mark, coding in ((codecs.BOM_UTF8, 'utf-8'), (codecs.BOM_UTF16_LE, 'utf-16-le'), (codecs.BOM_UTF16_BE, 'utf-16-be')):
        if data.startswith(mark):
            changes.update([MARK] if coding == 'utf-8' else [MARK, WIDE])
            try:
                return data[len(mark):].decode(coding)
            except UnicodeDecodeError:
                raise Refused(f'NotText {coding}') from None
    try:
        return data.decode('utf-8')
    except UnicodeDecodeError:
        changes[LATIN] += 1
        return data.decode('latin-1')


def plain_text(data, kind, changes):
    """The text of a file that is neither a zip nor a spreadsheet."""
    text = decoded(data, changes) if kind is None else ''
    begins = text.lstrip()[:1]
    kind = kind or next((kind for sign, kind in MARKUP if begins == sign), None) or ('binary' if '\x00' in text else None)
    if kind is not None:
        raise Refused(f'NotText {kind}')
    return text


def text_of(data, changes, part=None):
    """The text of a file, of the one file in a zip, or of a sheet of a spreadsheet. What it had otherwise than a plan's file has is
    counted."""
    kind = kind_of(data)
    if kind == 'zip':
        data = unpacked(data, part, changes)
        kind, part = kind_of(data), None
    if kind == 'xlsx':
        return sheet_text(data, part, changes)
    if part is not None:
        raise Refused('NoPart')
    text = plain_text(data, kind, changes)
    both = text.count('\r\n')
    changes[CRLF] += both
    changes[CR] += text.count('\r') - both
    if text and not text.endswith(('\n', '\r')):
        changes[LAST] += 1
    return text
