"""Writes the files in editors/ from the tables of reserved words and symbols.

With --check it writes nothing, and fails where a file there is not what it would write.
"""
import json
import os
import re
import sys

from unity_tool.emacs import emacs
from unity_tool.repository import TOP
from unity_tool.wrong_use import Failure

ROWS = "crates/case_tables/src/cases.rt"
# what words are coloured as; each other word is a keyword
KINDS = {
    "sections": "unity program declare always initially start assign end proof schedule certificates",
    "claims": "defined invariant unless stable ensures leadsto",
    "operators": "and or not all any sum",
    "types": "boolean array of",
    "values": "true false",
}
VIM = '''" Vim syntax of UNITY documents, written by scripts/editors.sh
if exists("b:current_syntax")
  finish
endif
syntax keyword unitySection %(sections)s
syntax keyword unityClaim %(claims)s
syntax keyword unityKeyword %(keywords)s
syntax keyword unityOperatorWord %(operators)s
syntax keyword unityType %(types)s
syntax keyword unityValue %(values)s
syntax match unityNumber "\\<[0-9]\\+\\>"
syntax match unityComment "#.*$"
syntax match unitySymbol "%(symbols)s"
highlight default link unitySection Structure
highlight default link unityClaim Statement
highlight default link unityKeyword Keyword
highlight default link unityOperatorWord Operator
highlight default link unityType Type
highlight default link unityValue Boolean
highlight default link unityNumber Number
highlight default link unityComment Comment
highlight default link unitySymbol Operator
let b:current_syntax = "unity"
'''
KATE_HEAD = '''<?xml version="1.0" encoding="UTF-8"?>
<!-- Kate syntax of UNITY documents, written by scripts/editors.sh -->
<language name="UNITY" section="Sources" version="1" kateversion="5.0" extensions="*.unity">
  <highlighting>
'''
KATE_TAIL = '''    <contexts>
      <context name="Document" attribute="Text" lineEndContext="#stay">
        <DetectChar char="#" attribute="Comment" context="Comment"/>
        <keyword String="sections" attribute="Section" context="#stay"/>
        <keyword String="claims" attribute="Claim" context="#stay"/>
        <keyword String="keywords" attribute="Keyword" context="#stay"/>
        <keyword String="operators" attribute="Operator" context="#stay"/>
        <keyword String="types" attribute="Type" context="#stay"/>
        <keyword String="values" attribute="Value" context="#stay"/>
        <Int attribute="Number" context="#stay"/>
        <AnyChar String="%s" attribute="Operator" context="#stay"/>
      </context>
      <context name="Comment" attribute="Comment" lineEndContext="#pop"/>
    </contexts>
    <itemDatas>
      <itemData name="Text" defStyleNum="dsNormal"/>
      <itemData name="Comment" defStyleNum="dsComment"/>
      <itemData name="Section" defStyleNum="dsControlFlow"/>
      <itemData name="Claim" defStyleNum="dsKeyword"/>
      <itemData name="Keyword" defStyleNum="dsKeyword"/>
      <itemData name="Operator" defStyleNum="dsOperator"/>
      <itemData name="Type" defStyleNum="dsDataType"/>
      <itemData name="Value" defStyleNum="dsConstant"/>
      <itemData name="Number" defStyleNum="dsDecVal"/>
    </itemDatas>
  </highlighting>
  <general>
    <comments><comment name="singleLine" start="#"/></comments>
  </general>
</language>
'''


def names_in(table):
    """The names of the rows of a table, in its order."""
    with open(os.path.join(TOP, ROWS), encoding="utf-8") as file:
        rows = re.search(r"(?s)\n    \(%s,.*?\n    };" % table, file.read()).group()
    return re.findall(r'(?m)^ *"(.*)" => ', rows)


def kinds_of_words():
    """The words of each kind, as lists, with the keywords."""
    words = names_in("Word")
    kinds = {kind: listed.split() for kind, listed in KINDS.items()}
    others = [word for listed in kinds.values() for word in listed]
    for word in others:
        if word not in words:
            raise Failure(1, "%s is no reserved word of %s" % (word, ROWS))
    return {**kinds, "keywords": [word for word in words if word not in others]}


def escaped(symbols, signs, between):
    """The symbols as one pattern, the longest first, with a backslash before each of these signs."""
    longest = sorted(symbols, key=len, reverse=True)
    return between.join(re.sub("([%s])" % re.escape(signs), r"\\\1", symbol) for symbol in longest)


def vim(kinds, symbols):
    words = {kind: " ".join(listed) for kind, listed in kinds.items()}
    return VIM % {**words, "symbols": escaped(symbols, "][.*^$~\"/\\", "\\|")}


def textmate(kinds, symbols):
    rules = [("comment.line.number-sign", "#.*$"), ("constant.numeric", r"\b[0-9]+\b")]
    rules += [(name, r"\b(%s)\b" % "|".join(kinds[kind])) for name, kind in (
        ("keyword.control.section", "sections"), ("keyword.other.claim", "claims"), ("keyword.other", "keywords"),
        ("keyword.operator.word", "operators"), ("storage.type", "types"), ("constant.language", "values"))]
    rules.append(("keyword.operator", escaped(symbols, "][.*^$|(){}+?/\\", "|")))
    lines = ['    { "name": "%s.unity", "match": "%s" }' % (name, pattern.replace("\\", "\\\\"))
             for name, pattern in rules]
    return '{\n  "name": "UNITY",\n  "scopeName": "source.unity",\n  "fileTypes": ["unity"],\n  "patterns": [\n%s\n' \
        "  ]\n}\n" % ",\n".join(lines)


def kate(kinds, symbols):
    lists = "".join('    <list name="%s">\n%s    </list>\n' % (
        kind, "".join("      <item>%s</item>\n" % word for word in kinds[kind]))
        for kind in ("sections", "claims", "keywords", "operators", "types", "values"))
    signs = "".join(sorted(set("".join(symbols)))).replace("&", "&amp;").replace("<", "&lt;").replace(">", "&gt;")
    return KATE_HEAD + lists + KATE_TAIL % signs


def words(kinds, symbols):
    """The table for the language server."""
    return json.dumps({**kinds, "symbols": symbols}, indent=1) + "\n"


def add_options(parser):
    parser.add_argument("--check", action="store_true", help="write nothing, and compare with the files")


# what is written, and how it is made
WRITTEN = (("unity.vim", vim), ("unity.tmLanguage.json", textmate), ("unity.xml", kate), ("unity-mode.el", emacs),
           ("words.json", words), ("vscode/syntaxes/unity.tmLanguage.json", textmate))


def main(chosen):
    kinds, symbols, status = kinds_of_words(), names_in("Symbol"), 0
    for name, make in WRITTEN:
        path, text = os.path.join(TOP, "editors", name), make(kinds, symbols)
        if chosen.check:
            with open(path, encoding="utf-8") as file:
                if file.read() != text:
                    sys.stderr.write("editors/%s: scripts/editors.sh writes another one\n" % name)
                    status = 1
        else:
            with open(path, "w", encoding="utf-8") as file:
                file.write(text)
    return status
