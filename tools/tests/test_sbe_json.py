"""Tests of tools/sbe-json: the JSON that each construct of XML gives, and each refusal with its place."""
import importlib.machinery
import importlib.util
import json
import os
import subprocess
import sys
import tempfile
import time
import unittest

PROGRAM = os.path.join(os.path.dirname(os.path.dirname(os.path.abspath(__file__))), "sbe-json")
EXAMPLES = os.path.join(os.path.dirname(os.path.dirname(PROGRAM)), "examples")


def loaded():
    loader = importlib.machinery.SourceFileLoader("sbe_json", PROGRAM)
    spec = importlib.util.spec_from_loader("sbe_json", loader)
    module = importlib.util.module_from_spec(spec)
    sys.dont_write_bytecode = True
    loader.exec_module(module)
    return module


sbe_json = loaded()

# Every element and attribute of an SBE 1.0 message schema, with prefixes.
WHOLE = """<?xml version="1.0" encoding="UTF-8"?>
<!-- a comment before the root -->
<sbe:messageSchema xmlns:sbe="http://fixprotocol.io/2016/sbe" package="demo" id="7" version="2"
    semanticVersion="5.2" byteOrder="bigEndian" headerType="head" description="a &lt;small&gt; one">
  <types>
    <composite name="head">
      <type name="blockLength" primitiveType="uint16"/>
      <type name="templateId" primitiveType="uint16" offset="4"/>
      <ref name="schemaId" type="Id"/>
      <enum name="e" encodingType="uint8"><validValue name="One">1</validValue></enum>
      <set name="s" encodingType="uint8"><choice name="Bit">3</choice></set>
      <composite name="inner"/>
    </composite>
    <type name="Id" primitiveType="uint16" presence="optional" nullValue="65535" minValue="0" maxValue="9"/>
    <type name="Code" primitiveType="char" length="3" presence="constant" characterEncoding="ASCII"><![CDATA[EUR]]></type>
    <type name="Side" primitiveType="char" presence="constant" valueRef="SideEnum.Buy"/>
  </types>
  <sbe:message name="M" id="1" semanticType="D" blockLength="8" sinceVersion="1">
    <field name="f" id="10" type="Id" offset="0" presence="required" sinceVersion="1"/>
    <group name="g" id="20" dimensionType="groupSize" blockLength="4"><field name="x" id="21" type="uint8"/></group>
    <data name="d" id="30" type="varData"/>
  </sbe:message>
</sbe:messageSchema>
"""

HEAD_AS_JSON = {"composite": {"name": "head", "content": [
    {"type": {"name": "blockLength", "primitiveType": "uint16"}},
    {"type": {"name": "templateId", "primitiveType": "uint16", "offset": "4"}},
    {"ref": {"name": "schemaId", "type": "Id"}},
    {"enum": {"name": "e", "encodingType": "uint8", "content": [{"validValue": {"name": "One", "text": "1"}}]}},
    {"set": {"name": "s", "encodingType": "uint8", "content": [{"choice": {"name": "Bit", "text": "3"}}]}},
    {"composite": {"name": "inner"}}]}}

WHOLE_AS_JSON = {"messageSchema": {
    "package": "demo", "id": "7", "version": "2", "semanticVersion": "5.2", "byteOrder": "bigEndian",
    "headerType": "head", "description": "a <small> one", "content": [
        {"types": {"content": [
            HEAD_AS_JSON,
            {"type": {"name": "Id", "primitiveType": "uint16", "presence": "optional", "nullValue": "65535",
                      "minValue": "0", "maxValue": "9"}},
            {"type": {"name": "Code", "primitiveType": "char", "length": "3", "presence": "constant",
                      "characterEncoding": "ASCII", "text": "EUR"}},
            {"type": {"name": "Side", "primitiveType": "char", "presence": "constant", "valueRef": "SideEnum.Buy"}}]}},
        {"message": {"name": "M", "id": "1", "semanticType": "D", "blockLength": "8", "sinceVersion": "1", "content": [
            {"field": {"name": "f", "id": "10", "type": "Id", "offset": "0", "presence": "required",
                       "sinceVersion": "1"}},
            {"group": {"name": "g", "id": "20", "dimensionType": "groupSize", "blockLength": "4",
                       "content": [{"field": {"name": "x", "id": "21", "type": "uint8"}}]}},
            {"data": {"name": "d", "id": "30", "type": "varData"}}]}}]}}

REPOSITORY = """<fixr:repository xmlns:fixr="http://fixprotocol.io/2020/orchestra/repository" name="r" version="1">
  <fixr:datatypes><fixr:datatype name="Price" baseType="float"/></fixr:datatypes>
  <fixr:codeSets><fixr:codeSet name="SideCodeSet" type="char"><fixr:code name="Buy" value="1"/></fixr:codeSet></fixr:codeSets>
  <fixr:fields><fixr:field id="54" name="Side" type="SideCodeSet"/>
    <fixr:field id="96" name="RawData" type="data" lengthId="95"/></fixr:fields>
  <fixr:components><fixr:component id="1" name="Instrument"><fixr:fieldRef id="55"/>
    <fixr:componentRef id="2"/></fixr:component></fixr:components>
  <fixr:groups><fixr:group id="3" name="Parties"><fixr:numInGroup id="453"/><fixr:fieldRef id="448" presence="required"/>
    <fixr:groupRef id="4"/></fixr:group></fixr:groups>
  <fixr:messages><fixr:message name="O" msgType="D"><fixr:structure><fixr:componentRef id="1"/><fixr:groupRef id="3"/>
    <fixr:fieldRef id="54"/></fixr:structure></fixr:message></fixr:messages>
</fixr:repository>"""

REPOSITORY_AS_JSON = {"repository": {"name": "r", "version": "1", "content": [
    {"datatypes": {"content": [{"datatype": {"name": "Price", "baseType": "float"}}]}},
    {"codeSets": {"content": [{"codeSet": {"name": "SideCodeSet", "type": "char",
                                           "content": [{"code": {"name": "Buy", "value": "1"}}]}}]}},
    {"fields": {"content": [{"field": {"id": "54", "name": "Side", "type": "SideCodeSet"}},
                            {"field": {"id": "96", "name": "RawData", "type": "data", "lengthId": "95"}}]}},
    {"components": {"content": [{"component": {"id": "1", "name": "Instrument", "content": [
        {"fieldRef": {"id": "55"}}, {"componentRef": {"id": "2"}}]}}]}},
    {"groups": {"content": [{"group": {"id": "3", "name": "Parties", "content": [
        {"numInGroup": {"id": "453"}}, {"fieldRef": {"id": "448", "presence": "required"}}, {"groupRef": {"id": "4"}}]}}]}},
    {"messages": {"content": [{"message": {"name": "O", "msgType": "D", "content": [
        {"structure": {"content": [{"componentRef": {"id": "1"}}, {"groupRef": {"id": "3"}},
                                   {"fieldRef": {"id": "54"}}]}}]}}]}}]}}

LAUGHS = '<!DOCTYPE l [<!ENTITY a "ha">%s]><messageSchema>&z;</messageSchema>' % "".join(
    '<!ENTITY %s "%s">' % (chr(98 + i), "&%s;" % chr(97 + i) * 10) for i in range(25))


def nested(depth):
    return "<messageSchema>" + "<a>" * (depth - 1) + "</a>" * (depth - 1) + "</messageSchema>"


def run(*words, stdin=b"", path=None):
    env = dict(os.environ) if path is None else dict(os.environ, PATH=path)
    return subprocess.run([sys.executable, PROGRAM, *words], input=stdin, capture_output=True, env=env)


class Converts(unittest.TestCase):
    def check(self, xml, want):
        data = xml if isinstance(xml, bytes) else xml.encode()
        self.assertEqual(json.loads(sbe_json.converted("x.xml", data)), want)

    def test_every_element_and_attribute(self):
        self.check(WHOLE, WHOLE_AS_JSON)

    def test_without_prefixes(self):
        self.check(WHOLE.replace("sbe:", "").replace("xmlns:sbe", "xmlns").replace(":sbe=", "="), WHOLE_AS_JSON)

    def test_a_repository(self):
        self.check(REPOSITORY, REPOSITORY_AS_JSON)

    def test_the_examples(self):
        for name in ("feed", "orders", "orders-map"):
            done = run(os.path.join(EXAMPLES, name + ".xml"))
            with open(os.path.join(EXAMPLES, name + ".json"), "rb") as kept:
                self.assertEqual((done.returncode, done.stdout), (0, kept.read()), name)

    def test_both_byte_orders(self):
        for order in ("littleEndian", "bigEndian"):
            self.check('<messageSchema byteOrder="%s"/>' % order, {"messageSchema": {"byteOrder": order}})

    def test_text_is_a_token_and_may_come_in_pieces(self):
        rows = [("  1\n", "1"), ("a<!-- c -->b", "ab"), ("<![CDATA[<]]>&amp;", "<&"), ("a\t \n b", "a b"), ("&#233;", "é")]
        for text, want in rows:
            self.check("<messageSchema><v>%s</v></messageSchema>" % text, {"messageSchema": {"content": [{"v": {"text": want}}]}})

    def test_blank_text_is_none(self):
        self.check("<messageSchema> <v> </v> </messageSchema>", {"messageSchema": {"content": [{"v": {}}]}})

    def test_other_encodings(self):
        xml = '<?xml version="1.0" encoding="%s"?><messageSchema package="é"/>'
        for name in ("utf-8", "iso-8859-1", "utf-16"):
            self.check((xml % name).encode(name), {"messageSchema": {"package": "é"}})

    def test_one_mebibyte(self):
        field = '<field name="f" id="1" type="uint8"/>'
        count = (1 << 20) // len(field)
        got = json.loads(sbe_json.converted("x.xml", ("<messageSchema>" + field * count + "</messageSchema>").encode()))
        self.assertEqual(len(got["messageSchema"]["content"]), count)
        self.assertEqual(got["messageSchema"]["content"][-1], {"field": {"name": "f", "id": "1", "type": "uint8"}})

    def test_the_deepest(self):
        text = sbe_json.converted("x.xml", nested(sbe_json.DEEPEST).encode())
        deep = longest = 0
        for c in text:
            deep += (c in "{[") - (c in "}]")
            longest = max(longest, deep)
        self.assertLessEqual(longest, 127)


class Refuses(unittest.TestCase):
    def check(self, xml, place, words):
        with self.assertRaises(sbe_json.Refused) as caught:
            sbe_json.converted("x.xml", xml.encode())
        self.assertTrue(str(caught.exception).startswith("x.xml:%s: " % place), str(caught.exception))
        self.assertIn(words, str(caught.exception))

    def test_a_document_type_with_a_billion_laughs_at_once(self):
        began = time.monotonic()
        self.check(LAUGHS, "1:13", "document type")
        self.assertLess(time.monotonic() - began, 5)

    def test_an_external_entity(self):
        self.check('<!DOCTYPE m SYSTEM "file:///etc/passwd"><messageSchema/>', "1:40", "document type")

    def test_what_is_not_well_formed(self):
        rows = [("<messageSchema>\n <a></b>", "2:7"), ("", "1:1"), ("<messageSchema", "1:1"), ("<messageSchema>&x;</messageSchema>", "1:16"),
                ("<messageSchema/><b/>", "1:17"), ("<messageSchema a='1' a='2'/>", "1:22")]
        for xml, place in rows:
            self.check(xml, place, "not well formed")

    def test_too_deep(self):
        self.check(nested(sbe_json.DEEPEST + 1), "1:%d" % (16 + 3 * (sbe_json.DEEPEST - 1)), "nested")

    def test_another_root(self):
        self.check("\n<schema/>", "2:1", "root")

    def test_attributes_that_hide_content_or_text(self):
        self.check("<messageSchema>\n<a text='1'/></messageSchema>", "2:1", "'text'")
        self.check("<messageSchema content='1'/>", "1:1", "'content'")


class Includes(unittest.TestCase):
    INCLUDE = '<messageSchema xmlns:xi="http://www.w3.org/2001/XInclude">\n<xi:include %s/></messageSchema>'

    def setUp(self):
        self.folder = tempfile.TemporaryDirectory()
        self.addCleanup(self.folder.cleanup)

    def file(self, name, text):
        path = os.path.join(self.folder.name, name)
        os.makedirs(os.path.dirname(path), exist_ok=True)
        with open(path, "w", encoding="utf-8") as f:
            f.write(text)
        return path

    def read(self, path):
        with open(path, "rb") as f:
            return json.loads(sbe_json.converted(path, f.read()))

    def test_files_beside_the_one_that_names_them(self):
        self.file("a/types.xml", '<types xmlns:xi="http://www.w3.org/2001/XInclude"><xi:include href="more/t.xml"/></types>')
        self.file("a/more/t.xml", '<type name="T" primitiveType="uint8"/>')
        path = self.file("a/s.xml", self.INCLUDE % 'href="types.xml"')
        want = {"messageSchema": {"content": [{"types": {"content": [{"type": {"name": "T", "primitiveType": "uint8"}}]}}]}}
        self.assertEqual(self.read(path), want)

    def test_an_element_of_that_name_elsewhere_is_no_include(self):
        path = self.file("s.xml", '<messageSchema><include href="gone.xml"/></messageSchema>')
        self.assertEqual(self.read(path), {"messageSchema": {"content": [{"include": {"href": "gone.xml"}}]}})

    def test_refusals(self):
        self.file("loop.xml", self.INCLUDE % 'href="loop.xml"')
        self.file("bad.xml", "<types>\n<")
        rows = [('href="gone.xml"', "2:1", "can't be included"), ('href="http://x/y.xml"', "2:1", "local"), ("", "2:1", "no href"),
                ('href="a.xml" parse="text"', "2:1", "whole XML"), ('href="a.xml" xpointer="x"', "2:1", "whole XML"),
                ('href="loop.xml"', "2:1", "includes itself"), ('href="bad.xml"', "2:1", "not well formed")]
        for attributes, place, words in rows:
            path = self.file("s.xml", self.INCLUDE % attributes)
            with self.assertRaises(sbe_json.Refused) as caught:
                self.read(path)
            self.assertIn(":%s: " % place, str(caught.exception))
            self.assertIn(words, str(caught.exception))


class Runs(unittest.TestCase):
    def test_from_standard_input(self):
        done = run("-", stdin=b"<messageSchema id='7'/>")
        self.assertEqual((done.returncode, done.stdout, done.stderr), (0, b'{"messageSchema":{"id":"7"}}\n', b""))

    def test_a_refusal_prints_nothing(self):
        done = run("-", stdin=b"<messageSchema>")
        self.assertEqual((done.returncode, done.stdout), (1, b""))
        self.assertTrue(done.stderr.startswith(b"sbe-json: <stdin>:1:16: not well formed: "), done.stderr)

    def test_no_file(self):
        done = run("gone.xml")
        self.assertEqual((done.returncode, done.stdout), (1, b""))
        self.assertEqual(done.stderr, b"sbe-json: gone.xml: No such file or directory\n")

    def test_help(self):
        done = run("--help")
        self.assertEqual(done.returncode, 0)
        self.assertIn(b"--check", done.stdout)

    def test_check_asks_sbe(self):
        with tempfile.TemporaryDirectory() as folder:
            sbe = os.path.join(folder, "sbe")
            for status, want in ((0, b'{"messageSchema":{}}\n'), (3, b"")):
                with open(sbe, "w") as f:
                    f.write('#!/bin/sh\necho "$1" "$(cat "$2")"\nexit %d\n' % status)
                os.chmod(sbe, 0o755)
                done = run("--check", "-", stdin=b"<messageSchema/>", path=folder + os.pathsep + os.environ["PATH"])
                self.assertEqual((done.returncode, done.stdout), (status, want))
                self.assertEqual(done.stderr, b'check {"messageSchema":{}}\n')

    def test_check_without_sbe(self):
        with tempfile.TemporaryDirectory() as folder:
            done = run("--check", "-", stdin=b"<messageSchema/>", path=folder)
            self.assertEqual((done.returncode, done.stdout), (0, b'{"messageSchema":{}}\n'))
            self.assertIn(b"nothing was checked", done.stderr)


if __name__ == "__main__":
    unittest.main()
