"""Has clients choose an auth scheme, and compares what is chosen, or what is said where none is. The
choices, their order and the texts were worked out from the rules of a choice, without the program.
"""
from typing import Any, List, Optional

from .support.one_client import ended, failed, printed
from .support.program import ProgramTest

# How the texts begin, why an option isn't chosen, and what is advised.
OPENING = "failed to select an auth scheme to sign the request with."
NO_SCHEME = "no auth scheme was registered for it."
NO_RESOLVER = "there was no identity resolver for it."
SET_AN_IDENTITY = (
    " Be sure to set an identity, such as credentials, auth token, or other identity type that is"
    " required for this service."
)
GO_WITHOUT = (
    " If you intended to make an unauthenticated request, consider using `@optionalAuth` or"
    " `@auth([])` on the operation in the service model and regenerating the client SDK. If"
    " modifying the model is not possible, you can disable authentication at runtime as described"
    " in https://github.com/smithy-lang/smithy-rs/discussions/4197."
)
THERE_ARE_MORE = (
    " Note: there were other auth schemes that were evaluated that weren't listed here."
)
NO_SCHEMES = (
    "no auth schemes are registered. This can happen if there's a problem with the service model,"
    " or if there is a codegen bug."
)

# The options, each a letter, the preference that they are put in order by, and the order. The last
# place of a name in the preference counts.
ORDERS = [
    ("bac", ["b", "a", "b"], "abc"),
    ("bac", ["x", "y"], "bac"),
    ("aba", ["b"], "baa"),
    ("ba", None, "ba"),
]


def auth(
    options: List[str],
    schemes: List[str],
    with_identities: List[str],
    preference: Optional[List[str]] = None,
) -> List[Any]:
    """What a client says of its signing. An identity has its id as its data."""
    identities = [[name, 0, [name, None]] for name in with_identities]
    return [options, schemes, identities, preference, "none"]


def refused(option: str, reason: str) -> str:
    """What is said of an option that isn't chosen."""
    return f' "{option}" wasn\'t a valid option because {reason}'


def all_without_identity(options: str) -> str:
    """What is said of these options, each a letter, where no identity is there for any."""
    return "".join(refused(option, NO_RESOLVER) for option in options)


class ChoiceTest(ProgramTest):
    def assert_none_is_chosen(self, auth: List[Any], text: str) -> None:
        self.assertEqual(ended(auth=auth), failed(text))

    def test_the_first_option_with_a_scheme_and_an_identity_is_chosen(self):
        lines = printed(auth=auth(["a", "b", "noAuth"], ["a", "b"], ["b"]))
        [answer] = [line[2] for line in lines if line[1] == "Choose"]
        self.assertEqual(answer, ["Chosen", "b", ["b", None], None, [], "Uncached"])

    def test_a_preference_puts_the_options_in_order(self):
        for options, preference, order in ORDERS:
            with self.subTest(options=options, preference=preference):
                text = OPENING + all_without_identity(order) + SET_AN_IDENTITY + GO_WITHOUT
                without_identities = auth(list(options), ["a", "b", "c"], [], preference)
                self.assert_none_is_chosen(without_identities, text)

    def test_each_refused_option_is_told_of_with_the_first_thing_that_it_lacks(self):
        text = (
            OPENING
            + refused("a", NO_RESOLVER)
            + refused("b", NO_SCHEME)
            + refused("noAuth", NO_SCHEME)
            + SET_AN_IDENTITY
        )
        self.assert_none_is_chosen(auth(["a", "b", "noAuth"], ["a"], ["b"]), text)

    def test_a_scheme_that_is_lacking_is_told_of_without_advice_to_go_without(self):
        text = OPENING + refused("a", NO_SCHEME) + refused("b", NO_RESOLVER) + SET_AN_IDENTITY
        self.assert_none_is_chosen(auth(["a", "b"], ["b"], []), text)

    def test_no_advice_to_go_without_is_given_where_no_auth_is_an_option(self):
        text = OPENING + refused("noAuth", NO_RESOLVER) + SET_AN_IDENTITY
        self.assert_none_is_chosen(auth(["noAuth"], ["noAuth"], []), text)

    def test_the_first_seven_refused_options_are_told_of(self):
        nine = list("abcdefghi")
        first = all_without_identity("abcdefg")
        text = OPENING + first + SET_AN_IDENTITY + GO_WITHOUT + THERE_ARE_MORE
        self.assert_none_is_chosen(auth(nine, nine, []), text)

    def test_options_that_all_lack_a_scheme_are_not_told_of(self):
        nine = list("abcdefghi")
        self.assert_none_is_chosen(auth(nine, [], nine), NO_SCHEMES)
