"""QuickFIX's data dictionaries, made from QuickFIX's own headers.

Debian's packages of QuickFIX have no FIX42.xml, FIXT11.xml and FIX50SP2.xml, but the headers that
were made from them: the fields of each message in their order, its groups, the fields that its
constructor asks for (the required ones), the type of each field and its codes. The headers give
one type and one list of codes for a field, that of all versions together.

    dictionary.py HEADERS FOLDER    writes the three files into FOLDER
"""

import os
import re
import sys
from xml.sax.saxutils import quoteattr

FIELD = re.compile(r'FIELD_SET\(\*this, FIX::(\w+)\);')
GROUP = re.compile(r'class (\w+): public FIX::Group')
ENDED = re.compile(r'^\s*};')
TYPE = re.compile(r'MsgType\("(\w+)"\)')
ASKED = re.compile(r'const FIX::(\w+)& a\w+[ ,)]')

# The codes of a field stand as NAME_MEANING, and some fields share those of another.
VALUE = re.compile(r'const (?:char|int) ([A-Za-z0-9]+)_(\w+?)(?:\[\])? = ["\']?([^"\';]+)["\']?;')


def text_of(folder, name):
    with open(os.path.join(folder, name), encoding='ascii') as source:
        return source.read()


def body(lines):
    """The members of a class from the line behind its head: the name of each, and the members of
    its group or None."""
    members = []
    for line in lines:
        if ENDED.match(line):
            return members
        group, field = GROUP.search(line), FIELD.search(line)
        if group:
            inner = body(lines)
            members = [(n, inner if n == group[1] else g) for n, g in members]
        elif field:
            members.append((field[1], None))
    return members


def written(members, asked, depth):
    """The lines of a dictionary for the members."""
    for name, inner in members:
        needed = "'Y'" if name in asked else "'N'"
        if inner is None:
            yield f"{'  ' * depth}<field name='{name}' required={needed}/>"
        else:
            yield f"{'  ' * depth}<group name='{name}' required={needed}>"
            yield from written(inner, (), depth + 1)
            yield f"{'  ' * depth}</group>"


def names_of(members):
    for name, inner in members:
        yield name
        yield from names_of(inner or ())


def dictionary(headers, version, head):
    folder = os.path.join(headers, version)
    lines = iter(text_of(folder, 'Message.h').splitlines())
    header = trailer = ()
    for line in lines:
        if 'class Header' in line:
            header = body(lines)
        elif 'class Trailer' in line:
            trailer = body(lines)
    used = set(names_of(header)) | set(names_of(trailer))
    needed = ('BeginString', 'BodyLength', 'MsgType', 'SenderCompID', 'TargetCompID', 'MsgSeqNum',
              'SendingTime', 'CheckSum')
    messages = []
    for file in sorted(os.listdir(folder)):
        source = text_of(folder, file)
        code = TYPE.search(source)
        if file in ('Message.h', 'MessageCracker.h') or not code:
            continue
        lines = iter(source.splitlines())
        next(line for line in lines if ': public Message' in line)
        members = body(lines)
        asked = set(ASKED.findall(source))
        used |= set(names_of(members))
        admin = code[1] in '0 1 2 3 4 5 A'.split()
        messages.append(f"    <message name='{file[:-2]}' msgtype='{code[1]}'"
                        f" msgcat='{'admin' if admin else 'app'}'>")
        messages += written(members, asked, 3)
        messages.append('    </message>')
    numbers = dict(re.findall(r'const int (\w+) = (\d+);',
                              text_of(headers, 'FixFieldNumbers.h')))
    types = {name: kind for kind, name in re.findall(r'DEFINE_(\w+)\((\w+)\);',
                                                     text_of(headers, 'FixFields.h'))}
    values = {}
    for name, meaning, value in VALUE.findall(text_of(headers, 'FixValues.h')):
        values.setdefault(name, {})[value] = meaning
    yield f'<fix {head}>'
    yield '  <header>'
    yield from written(header, needed, 2)
    yield '  </header>'
    yield '  <messages>'
    yield from messages
    yield '  </messages>'
    yield '  <trailer>'
    yield from written(trailer, needed, 2)
    yield '  </trailer>'
    yield '  <components/>'
    yield '  <fields>'
    for name in sorted(used, key=lambda name: int(numbers[name])):
        head = f"number='{numbers[name]}' name='{name}' type='{types.get(name, 'STRING')}'"
        if name in values:
            yield f'    <field {head}>'
            for value, meaning in values[name].items():
                yield f"      <value enum={quoteattr(value)} description='{meaning}'/>"
            yield '    </field>'
        else:
            yield f'    <field {head}/>'
    yield '  </fields>'
    yield '</fix>'


def main():
    headers, folder = sys.argv[1:]
    for name, version, head in (
            ('FIX42.xml', 'fix42', "major='4' minor='2'"),
            ('FIXT11.xml', 'fixt11', "type='FIXT' major='1' minor='1'"),
            ('FIX50SP2.xml', 'fix50sp2', "type='FIX' major='5' minor='0' servicepack='2'")):
        with open(os.path.join(folder, name), 'w', encoding='ascii') as out:
            out.write('\n'.join(dictionary(headers, version, head)) + '\n')


main()
