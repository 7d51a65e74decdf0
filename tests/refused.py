"""Hands `client` scripts that are none, that pass a limit, or that are read, and compares the
statuses. Each comes of one script by a change of its text.
"""
from .support.program import ProgramTest, Ran, run

NO_SCRIPT, TOO_LARGE = 2, 6

CLIENT = (
    '{"buckets":[[500,5,5,10,0,0]],"start":0,"words":[1],"clients":[{"service":"s","operation":"o",'
    '"bucket":0,"retry":"never","timeouts":[null,null,null,null],"url":"http://localhost:1",'
    '"prefix":null,"sleep":true,"time":true,"poisoning":false,"enforce":false,"v2":true,'
    '"stall":null,"classifiers":["modeled","transient",["status",[503]]],'
    '"auth":[["a"],["a"],[["a",0,["key",null]]],null,["lazy",[0,900000000000,1,null]]]}],'
    '"invocations":[{"client":0,"input":[1,"x"],"fuel":100,"stop":"None","responses":'
    '[[0,503,[],[],false,null],[0,200,[["k","v"]],[[0,"ok"]],true,7],[0,["Failed","Io","t"]]]}]}'
)
AUTH = '"auth":[["a"],["a"]'
WHOLE_AUTH = '"auth":[["a"],["a"],[["a",0,["key",null]]],null,["lazy",[0,900000000000,1,null]]]'
BEARER = '"auth":[[],["http-bearer-auth"]'
API_KEY = '"auth":[[],["http-api-key-auth"]'

# What stands in the script, and what in its place leaves no script.
NO_SCRIPTS = [
    ('"start":0,', ""),
    ('"start":0', '"start":null'),
    ('"start":0', '"start":1.5'),
    ('"start":0', '"start":0,"more":1'),
    ('"words":[1]', '"words":null'),
    ('"words":[1]', '"words":[-1]'),
    ('"words":[1],', ""),
    ('"buckets":[[500,5,5,10,0,0]],', ""),
    ("500,5,5,10,0,0", "500,5,5,10,0"),
    ("500,5,5,10,0,0", "500,5,4294967296,10,0,0"),
    ('"bucket":0', '"bucket":1'),
    ('"retry":"never"', '"retry":null'),
    ('"retry":"never"', '"retry":["Standard",3,0,0]'),
    ('"timeouts":[null,null,null,null]', '"timeouts":null'),
    ('"prefix":null,', ""),
    ('"v2":true', '"v2":1'),
    ('"v2":true', '"v2":true,"http_schemes":null'),
    ('"v2":true', '"v2":true,"http_schemes":[["bearer"]]'),
    (AUTH, '"http_schemes":[["bearer"],["bearer"]],' + BEARER),
    (AUTH, '"http_schemes":[["bearer",null]],' + BEARER),
    (AUTH, '"http_schemes":[["api_key","Query","k","p"]],' + API_KEY),
    (AUTH, '"http_schemes":[["api_key","Path","k",null]],' + API_KEY),
    (WHOLE_AUTH, '"http_schemes":[["bearer"]],"auth":"none"'),
    ('"modeled"', '"Modeled"'),
    ("[503]]", "[65536]]"),
    ('["key",null]', '["Fail","t"]'),
    ("900000000000,1", "900000000000,0"),
    ("900000000000,1", "899999999999,1"),
    ("900000000000,1", "null,1"),
    ('"client":0', '"client":1'),
    ('"client":0,', ""),
    ('"input":[1,"x"],', ""),
    ('"fuel":100,', ""),
    ('"stop":"None",', ""),
    ('"stop":"None"', '"stop":null'),
    ('["k","v"]', '["k k","v"]'),
    ('[0,"ok"]', "[0]"),
    ('[[0,"ok"]],true', "[],true"),
    ('"Io","t"', '"Io",null'),
    ('{"client":0,"input":[1,"x"],"fuel":100,"stop":"None",', "{"),
]
# What stands in the script, and what in its place is another script within the limits.
SCRIPTS = [
    ("", ""),
    ('"bucket":0', '"bucket":null'),
    ('["key",null]', '["Failed","t"]'),
    ('["key",null]', '["Failed",5]'),
    ('[[0,"ok"]],true', "[],false"),
    ('"fuel":100', '"fuel":100000'),
    ("500,5,5", "500000000,5,5"),
    ('"words":[1]', '"words":[]'),
    ('"v2":true', '"v2":true,"http_schemes":[]'),
    (
        AUTH,
        '"http_schemes":[["bearer"],["api_key","Header","k","p"]],'
        '"auth":[[],["http-bearer-auth","http-api-key-auth"]',
    ),
    (AUTH, '"http_schemes":[["api_key","Header","k k",null]],' + API_KEY),
    (AUTH, '"http_schemes":[["api_key","Query","k",null]],' + API_KEY),
    (WHOLE_AUTH, '"http_schemes":[],"auth":"none"'),
]
# What stands in the script, and what in its place passes a limit.
LARGE_SCRIPTS = [
    ('"fuel":100', '"fuel":100001'),
    ("500,5,5", "500000001,5,5"),
    ('"service":"s"', '"service":"' + "s" * 4097 + '"'),
    ("[0,200,[", "[0,200,[" + '["k","v"],' * 32),
]


class RefusedTest(ProgramTest):
    def changed(self, old: str, new: str) -> Ran:
        """What `client` answers a script in which the new text stands in the place of the old."""
        text = CLIENT.replace(old, new) if old else CLIENT
        self.assertIn(old, CLIENT)
        self.assertEqual(text == CLIENT, old == new)
        return run("client", text=text)

    def test_texts_that_are_no_script(self):
        for old, new in NO_SCRIPTS:
            with self.subTest(f"{new[:60]} for {old[:60]}"):
                self.assertEqual(self.changed(old, new), (NO_SCRIPT, ""))

    def test_scripts_that_pass_a_limit(self):
        for old, new in LARGE_SCRIPTS:
            with self.subTest(f"{new[:60]} for {old[:60]}"):
                self.assertEqual(self.changed(old, new), (TOO_LARGE, ""))

    def test_scripts_that_are_read(self):
        for old, new in SCRIPTS:
            with self.subTest(f"{new[:60]} for {old[:60]}"):
                ran = self.changed(old, new)
                self.assertNotEqual(ran.output, "")
                self.assertNotIn(ran.status, (NO_SCRIPT, TOO_LARGE))
