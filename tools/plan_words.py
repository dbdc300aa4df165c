"""For tools/plan and tools/audit: the options by which a plan's file is read, and what each fault of such a file means."""
import argparse

from plan_letters import letters_of
from plan_table import DELIMITERS
from plan_turn import Reading

MEANINGS = {
    'Unreadable': "the file can't be read. Check the path and the rights",
    'TooLarge': 'the file is larger than 256 MiB (268,435,456 bytes). Check whether it is the right one',
    'NotText': 'the file is not a text but of the kind that follows. Save an old spreadsheet (xls, ods) as CSV, unpack an archive '
               '(gzip, 7z), or ask for the file from which a pdf, html or json was made',
    'NoModule': 'Python needs a module to read a spreadsheet. Run `apt-get install python3-openpyxl` or `pip install openpyxl`, or '
                'save the sheet as CSV',
    'BadArchive': 'the zip or spreadsheet is cut, damaged or locked by a password. Ask for it again',
    'ManyParts': 'the zip has several files, or the spreadsheet several sheets with values. Name one of them by --part',
    'NoPart': 'the zip or spreadsheet has nothing of the name in --part, or nothing at all, or the file is neither of both. Give one '
              'of the names that follow',
    'NoBlocks': 'no row has a block; N is the number of lines. Check whether the file was cut',
    'NoDelimiter': 'the first row has only one field. Say by --delimiter what separates the fields',
    'ManyDelimiters': 'each of these could separate the fields. Give the right one by --delimiter',
    'BadQuotes': 'a quote is not closed, or no delimiter follows a closed one. Correct the line',
    'BadFields': 'the line has more or fewer fields than the first row. Correct the line, or give --delimiter',
    'NoIdColumn': "no head is a usual name for the blocks' column. Give one of the heads that follow, or its number from 1, by --id",
    'ManyIdColumns': 'each of these columns could have the blocks. Give the right one by --id',
    'NoDistrictColumn': "no head is a usual name for the districts' column. Give one of the heads that follow, or its number from 1, "
                        'by --district',
    'ManyDistrictColumns': 'each of these columns could have the districts. Give the right one by --district',
    'NoColumn': 'the file has no such column. Give one of the heads that follow',
    'ManyColumns': 'several columns have this head. Give the number of the right one, from 1',
    'SameColumn': 'blocks and districts are the same column. Check --id and --district',
    'BadBlock': "a block isn't 15 digits. Check that the column is the right one, and that the rows are blocks of the 2020 census",
    'LostZero': 'a block has 14 digits, so its first one is missing: in the states 01 to 09 a spreadsheet took away a 0, in others the '
                'field was cut. Give --geo, which restores the digit if the state has such a block, or ask for the original file',
    'LostDigits': 'a block is written with an exponent: a spreadsheet took its last digits away, and they are lost. Ask for the '
                  'original file, and import the column as text',
    'UnknownBlock': 'the geographic header has no such block. Check whether the plan is of another state, or of another census than '
                    '2020',
    'Repeated': 'a block is listed twice. Check which of both lines is right',
    'BadDistrict': "a district isn't a number from 1 to 999, blank, ZZ or ZZZ. Give the numbers of named districts by --letters; "
                   '`tools/plan --print-letters FILE` prints the table',
    'ZeroDistrict': 'a district is 0. If that means no district, give a line `0,ZZ` by --letters',
    'BadLetters': "the table of letters can't be read, or its line N isn't a name and a number (or ZZ), or repeats a name. Replace "
                  'each question mark in it by a number',
    'BadHeader': "line N of the geographic header isn't a line of the 2020 census's file. Use it unzipped and unchanged",
    'NoStateBlocks': "the geographic header has no block. Use the state's complete header"}


def delimiter(word):
    if word in DELIMITERS or word == 'space':
        return DELIMITERS.get(word, ' ')
    if len(word) != 1 or word in '"\r\n':
        raise argparse.ArgumentTypeError('it is comma, tab, bar, semicolon, space or one sign')
    return word


def add_reading(parser):
    """The options that say how a plan's file is read."""
    parser.add_argument('--id', metavar='COLUMN', help="the blocks' column, by its head in any case or its number from 1")
    parser.add_argument('--district', metavar='COLUMN', help="the districts' column, by its head in any case or its number from 1")
    parser.add_argument('--letters', metavar='TABLE',
                        help='a file with a line NAME,NUMBER for each district that has a name, as A,1; the number ZZ means no district')
    parser.add_argument('--delimiter', metavar='SIGN', type=delimiter,
                        help='what separates the fields: comma, tab, bar, semicolon, space or one sign')
    parser.add_argument('--part', metavar='NAME', help='the file in a zip that has several, or the sheet of a spreadsheet')


def reading_of(given, **known):
    """What the options say, with what is known of the state."""
    letters = letters_of(given.letters) if given.letters else {}
    return Reading(given.id, given.district, given.delimiter, letters, given.part, **known)
