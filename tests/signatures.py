"""Signs the service's request by the schemes of HTTP, and compares it, or why it can't be signed.
Requests and refusals were worked out from the rules of the schemes, without the program.
"""
from typing import Any, Dict, List, Optional

from .support.one_client import ended, failed, stopped
from .support.program import ProgramTest

# How each byte is spelled in a query, sixteen bytes a line.
SPELLINGS = [
    "%00%01%02%03%04%05%06%07%08%09%0A%0B%0C%0D%0E%0F",
    "%10%11%12%13%14%15%16%17%18%19%1A%1B%1C%1D%1E%1F",
    "%20%21%22%23%24%25%26%27%28%29%2A%2B%2C-.%2F",
    "0123456789%3A%3B%3C%3D%3E%3F",
    "%40ABCDEFGHIJKLMNO",
    "PQRSTUVWXYZ%5B%5C%5D%5E_",
    "%60abcdefghijklmno",
    "pqrstuvwxyz%7B%7C%7D~%7F",
    "%80%81%82%83%84%85%86%87%88%89%8A%8B%8C%8D%8E%8F",
    "%90%91%92%93%94%95%96%97%98%99%9A%9B%9C%9D%9E%9F",
    "%A0%A1%A2%A3%A4%A5%A6%A7%A8%A9%AA%AB%AC%AD%AE%AF",
    "%B0%B1%B2%B3%B4%B5%B6%B7%B8%B9%BA%BB%BC%BD%BE%BF",
    "%C0%C1%C2%C3%C4%C5%C6%C7%C8%C9%CA%CB%CC%CD%CE%CF",
    "%D0%D1%D2%D3%D4%D5%D6%D7%D8%D9%DA%DB%DC%DD%DE%DF",
    "%E0%E1%E2%E3%E4%E5%E6%E7%E8%E9%EA%EB%EC%ED%EE%EF",
    "%F0%F1%F2%F3%F4%F5%F6%F7%F8%F9%FA%FB%FC%FD%FE%FF",
]

# A name, a key, an endpoint's URL, and where the request goes.
KEYS_IN_QUERY = [
    ("k", "x y", "http://h", "http://h/?k=x%20y"),
    ("k", "x y", "http://h/p", "http://h/p/?k=x%20y"),
    ("k", "x y", "HTTP://u:w@h:80/p/?a=1#k=2", "http://u:w@h:80/p/?k=x%20y"),
    ("a b", "é&=+/~", "http://h", "http://h/?a%20b=%C3%A9%26%3D%2B%2F~"),
    ("é", "v", "http://h", "http://h/?%C3%A9=v"),
    ("k", "", "http://h", "http://h/?k="),
    ("", "", "http://h", "http://h/?="),
]

# The most bytes of a URI.
LONGEST_URI = 65_534

# A name, a prefix if there is one, a key, and the header that the request gets.
KEYS_IN_HEADER = [
    ("X-Key", "Token", "tok", ["x-key", "Token tok"]),
    ("x-key", None, "tok", ["x-key", "tok"]),
    ("x-key", "", "", ["x-key", " "]),
]

# A name, a prefix if there is one, and a key, of which one has a byte that no header may have, or
# the name has no byte.
KEYS_OF_NO_HEADER = [
    ("x key", None, "tok"),
    ("", None, "tok"),
    ("x-key", None, "a\nb"),
    ("x-key", "a\rb", "tok"),
]


def signing(scheme: List[Any], scheme_id: str, data: Any) -> Dict[str, Any]:
    """The members of a client that signs by this scheme, with an identity of this data."""
    auth = [[scheme_id], [scheme_id], [[scheme_id, 0, [data, None]]], None, "none"]
    return {"http_schemes": [scheme], "auth": auth}


def signed_by_token(token: str) -> List[Any]:
    return ended(**signing(["bearer"], "http-bearer-auth", token))


def signed_by_header(name: str, prefix: Optional[str], key: str) -> List[Any]:
    return ended(**signing(["api_key", "Header", name, prefix], "http-api-key-auth", key))


def signed_by_query(name: str, key: Any, url: str = "http://h") -> List[Any]:
    members = signing(["api_key", "Query", name, None], "http-api-key-auth", key)
    return ended(url=url, **members)


class QueryTest(ProgramTest):
    def test_each_byte_of_a_key_is_spelled_by_its_rule(self):
        for row, spelled in enumerate(SPELLINGS):
            key = bytes(range(16 * row, 16 * row + 16))
            with self.subTest(bytes=key.hex()):
                answer = signed_by_query("k", {"hex": key.hex()})
                self.assertEqual(answer, stopped("http://h/?k=" + spelled))

    def test_a_key_stands_in_the_query_under_its_name(self):
        for name, key, url, uri in KEYS_IN_QUERY:
            with self.subTest(name=name, key=key, url=url):
                self.assertEqual(signed_by_query(name, key, url), stopped(uri))

    def test_a_uri_with_its_key_has_65534_bytes_at_most(self):
        front = "http://h/?k="
        longest_key = "a" * (LONGEST_URI - len(front))
        self.assertEqual(signed_by_query("k", longest_key), stopped(front + longest_key))
        self.assertEqual(signed_by_query("k", longest_key + "a"), failed("BadUrl"))


class HeaderTest(ProgramTest):
    def test_a_token_stands_in_the_header_authorization(self):
        for token in ["tok", "", "a b"]:
            with self.subTest(token=token):
                wanted = stopped("http://h/", ["authorization", f"Bearer {token}"])
                self.assertEqual(signed_by_token(token), wanted)

    def test_a_token_that_no_header_may_have_is_refused(self):
        self.assertEqual(signed_by_token("a\nb"), failed("BadHeader"))

    def test_a_key_stands_in_its_header_behind_the_prefix(self):
        for name, prefix, key, header in KEYS_IN_HEADER:
            with self.subTest(name=name, prefix=prefix, key=key):
                self.assertEqual(signed_by_header(name, prefix, key), stopped("http://h/", header))

    def test_a_name_a_prefix_or_a_key_that_no_header_may_have_is_refused(self):
        for name, prefix, key in KEYS_OF_NO_HEADER:
            with self.subTest(name=name, prefix=prefix, key=key):
                self.assertEqual(signed_by_header(name, prefix, key), failed("BadHeader"))
