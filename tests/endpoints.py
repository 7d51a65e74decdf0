"""Sends the service's request, whose target is `/`, to endpoints, and compares where it goes. The
URIs and the refusals were worked out from the rules of an endpoint, without the program.
"""
from .support.one_client import ended, failed, stopped
from .support.program import ProgramTest

# An endpoint's URL, and where the request goes. The URL's query is ignored, and of a slash behind
# its path and the one before the target one is left.
REACHED = [
    ("http://h", "http://h/"),
    ("http://h/x", "http://h/x/"),
    ("http://h/x/", "http://h/x/"),
    ("http://h/x/?q=1", "http://h/x/"),
    ("http://h?q=1", "http://h/"),
    ("http://h//", "http://h//"),
    ("http://[::1]:80", "http://[::1]:80/"),
    ("http://u@h:80/x", "http://u@h:80/x/"),
    ("HTTP://h", "http://h/"),
]

# A prefix, an endpoint's URL, and where the request goes.
PREFIXED = [
    ("prefix.subdomain.", "https://s3.amazon.com", "https://prefix.subdomain.s3.amazon.com/"),
    ("", "http://h", "http://h/"),
    ("v@", "http://u@h", "http://v@u@h/"),
]

# A prefix if there is one, an endpoint's URL, and why no request goes there.
REFUSED = [
    (None, "", "BadUrl"),
    ("a b.", "http://h", "BadAuthority"),
    ("", "/x", "BadAuthority"),
    ("h", "/x", "NoScheme"),
    ("", "h:80", "NoScheme"),
]


class EndpointTest(ProgramTest):
    def test_a_request_goes_to_its_target_behind_the_endpoints_path(self):
        for url, uri in REACHED:
            with self.subTest(url=url):
                self.assertEqual(ended(url=url), stopped(uri))

    def test_a_prefix_stands_before_the_endpoints_authority(self):
        for prefix, url, uri in PREFIXED:
            with self.subTest(prefix=prefix, url=url):
                self.assertEqual(ended(prefix=prefix, url=url), stopped(uri))

    def test_an_endpoint_is_refused_for_the_first_thing_that_is_wrong(self):
        for prefix, url, text in REFUSED:
            with self.subTest(prefix=prefix, url=url):
                self.assertEqual(ended(prefix=prefix, url=url), failed(text))
