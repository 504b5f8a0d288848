#!/usr/bin/env python3
"""Makes manual pages of what both programs say of themselves, and completion for brokerctl, so that none of it drifts.
packaging/manual.py pulsar_broker brokerctl folder day      Writes pulsar_broker.1, brokerctl.1 and brokerctl.bash there."""
import argparse
import re
import runpy
import subprocess
import sys
from unittest import mock

BASH = '''# Completion for brokerctl, made of its help.
_brokerctl() {
    local word=${COMP_WORDS[COMP_CWORD]} last=${COMP_WORDS[COMP_CWORD - 1]} path= at
    COMPREPLY=()
    for ((at = 1; at < COMP_CWORD; at++)); do
        case "$path ${COMP_WORDS[at]}" in
            @COMMANDS@) path+=" ${COMP_WORDS[at]}" ;;
        esac
    done
    # The value of an option: one of a few, a file, or what nobody can know.
    case "$path $last" in
        @VALUES@
    esac
    case $path in
        @WORDS@
    esac
}
complete -F _brokerctl brokerctl
'''
FILES = 'compopt -o filenames; mapfile -t COMPREPLY < <(compgen -f -- "$word")'


# ---- roff


def escaped(text):
    text = text.replace('\\', '\\e').replace('-', '\\-')
    return '\n'.join('\\&' + line if line[:1] in ('.', "'") else line for line in text.split('\n'))


def heading(name, day, about):
    return [f'.TH {name.upper()} 1 "{day}" "{about}" "User Commands"']


def section(title, *lines):
    return [f'.SH {title}', *lines]


def name_section(name, sentence):
    """As part of a line, the sentence has no article, no capital and no stop."""
    words = re.sub('^An? ', '', ' '.join(sentence.split())).rstrip('.')
    return section('NAME', f'{name} \\- {escaped(words[0].lower() + words[1:])}')


def as_it_stands(text):
    return ['.nf', escaped(text), '.fi']


def item(name, text):
    return ['.TP', f'.B {escaped(name)}', escaped(text) if text else '\\&']


# ---- pulsar_broker, by the text of its help


def page_of_text(name, help_text, day, about):
    """The first line is the usage; lines with two spaces before them are items, or commands to type; others are paragraphs."""
    usage, _, rest = help_text.partition('\n')
    paragraphs = rest.strip('\n').split('\n\n')
    lines = heading(name, day, about)
    lines += name_section(name, paragraphs[0])
    lines += section('SYNOPSIS', f'.B {escaped(usage.removeprefix("usage: "))}')
    lines += section('DESCRIPTION', escaped(paragraphs[0]))
    for paragraph in paragraphs[1:]:
        lines += ['.PP', *body_of(name, paragraph)]
    return lines + section('SEE ALSO', '.BR brokerctl (1),', '.I /usr/share/doc/pulsar\\-broker/README.md')


def body_of(name, paragraph):
    lines = []
    for line in paragraph.split('\n'):
        found = re.fullmatch(r'  (\S+)(?: +(.*))?', line)
        if found and found[1] == name:
            lines += as_it_stands(line)
        elif found:
            lines += item(found[1], found[2])
        else:
            lines.append(escaped(line.strip()))
    return lines


# ---- brokerctl, by its parser


class Read(BaseException):
    """The parser, where the program would read its words."""


def parser_of(program):
    def read(parser, *_words, **_more):
        raise Read(parser)
    with mock.patch.object(argparse.ArgumentParser, 'parse_known_args', read), mock.patch.object(sys, 'argv', ['brokerctl']):
        try:
            runpy.run_path(program, run_name='__main__')
        except Read as found:
            return found.args[0]
    raise SystemExit(f'{program} reads no words')


def options_of(parser):
    return [action for action in parser._actions if action.option_strings]


def places_of(parser):
    return [action for action in parser._actions if not action.option_strings and not hasattr(action.choices, 'items')]


def commands_of(parser):
    """The commands that the parser has, by name."""
    return next((action.choices for action in parser._actions if hasattr(action.choices, 'items')), {})


def takes_value(action):
    return action.nargs != 0


def is_file(action):
    return 'FILE' in (action.metavar, action.dest.upper())


def name_of(action):
    value = action.metavar or ('{' + ','.join(map(str, action.choices)) + '}' if action.choices else action.dest.upper())
    if not action.option_strings:
        return action.metavar or action.dest
    return ', '.join(action.option_strings) + (f' {value}' if takes_value(action) else '')


def help_of(parser, action):
    return parser._get_formatter()._expand_help(action) if action.help else ''


def usage_of(parser):
    return ' '.join(parser.format_usage().removeprefix('usage: ').split())


def all_commands(parser, path=''):
    """Each command with its parser, as ' dead list'."""
    yield path, parser
    for name, one in commands_of(parser).items():
        yield from all_commands(one, f'{path} {name}')


def page_of_parser(name, parser, day, about):
    lines = heading(name, day, about)
    lines += name_section(name, parser.description)
    lines += section('SYNOPSIS', f'.B {escaped(usage_of(parser))}')
    lines += section('OPTIONS')
    for action in options_of(parser):
        lines += item(name_of(action), help_of(parser, action))
    lines += section('COMMANDS')
    for path, one in all_commands(parser):
        if path and not commands_of(one):
            lines += command_of(path, one, parser)
    title, _, rest = (parser.epilog or '').strip().partition('\n')
    if rest:
        lines += section(title.rstrip(':').upper(), *as_it_stands(rest))
    return lines + section('SEE ALSO', '.BR pulsar_broker (1),', '.I /usr/share/doc/pulsar\\-broker/README.md')


def command_of(path, one, top):
    lines = [f'.SS {path.strip()}', f'.B {escaped(usage_of(one))}', '.PP', escaped((one.description or summary_of(path, top)).strip())]
    for action in [*places_of(one), *options_of(one)]:
        if action.dest != 'help':
            lines += item(name_of(action), help_of(one, action))
    return lines


def summary_of(path, top):
    *above, name = path.split()
    for step in above:
        top = commands_of(top)[step]
    listed = next(action for action in top._actions if hasattr(action.choices, 'items'))
    return next((choice.help for choice in listed._choices_actions if choice.dest == name), '')


def among(words):
    return f"mapfile -t COMPREPLY < <(compgen -W '{' '.join(map(str, words))}' -- \"$word\")"


def value_cases(path, parser):
    for action in filter(takes_value, options_of(parser)):
        pattern = ' | '.join(f'"{path} {option}"' for option in action.option_strings)
        found = among(action.choices) + '; ' if action.choices else FILES + '; ' if is_file(action) else ''
        yield f'{pattern}) {found}return ;;'


def word_case(path, parser):
    words = [option for action in options_of(parser) for option in action.option_strings] + list(commands_of(parser))
    words += [choice for action in places_of(parser) if action.choices for choice in action.choices]
    if any(map(is_file, places_of(parser))):
        return f"'{path}') if [[ $word == -* ]]; then {among(words)}; else {FILES}; fi ;;"
    return f"'{path}') {among(words)} ;;"


def completion_of(parser):
    found = list(all_commands(parser))
    text = BASH.replace('@COMMANDS@', ' | '.join(f'"{path}"' for path, _ in found if path))
    text = text.replace('@VALUES@', '\n        '.join(case for path, one in found for case in value_cases(path, one)))
    return text.replace('@WORDS@', '\n        '.join(word_case(path, one) for path, one in found))


def write(path, text):
    with open(path, 'w') as file:
        file.write(text)


def main():
    broker, brokerctl, folder, day = sys.argv[1:]
    said = {word: subprocess.run([broker, word], stdout=subprocess.PIPE, text=True, check=True).stdout for word in ('--help', '--version')}
    about = f'topic broker {said["--version"].split()[-1]}'
    parser = parser_of(brokerctl)
    write(f'{folder}/pulsar_broker.1', '\n'.join(page_of_text('pulsar_broker', said['--help'], day, about)) + '\n')
    write(f'{folder}/brokerctl.1', '\n'.join(page_of_parser('brokerctl', parser, day, about)) + '\n')
    write(f'{folder}/brokerctl.bash', completion_of(parser))


main()
