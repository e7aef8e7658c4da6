"""The browser that tools/browser-check drives: what went wrong in a page counts after the next one is opened too."""

import unittest
from unittest import mock

from shared import TOP
from itslib.browser import Browser, wrong_in

THROWN = {"method": "Runtime.exceptionThrown", "params": {"exceptionDetails": {"text": "Uncaught", "exception": {"description": "Error: planted"}}}}


def asked(url):
    """An event: the page asks for this."""
    return {"method": "Network.requestWillBeSent", "params": {"request": {"url": url}}}


class Complaints(unittest.TestCase):
    """A browser that notes these events, with a page that is opened after each."""

    def browser(self, *noted):
        """What it complains of."""
        coming = list(noted)

        def ask(browser, method, **words):
            """A question: what has been noted comes first, and a page that is opened is loaded."""
            browser.events += coming[:1]
            del coming[:1]
            if method == "Page.navigate":
                browser.events.append({"method": "Page.loadEventFired"})
            return {"result": {}}

        with mock.patch.object(Browser, "ask", ask):
            browser = Browser.__new__(Browser)
            browser.events, browser.wrong = [], []
            for _ in noted:
                browser.open(TOP)
            return browser.complaints()

    def test_events(self):
        self.assertEqual(wrong_in([asked("file:///a"), THROWN, {"method": "Page.loadEventFired"}, asked("https://b"), asked("blob:c")]),
                         ["Uncaught Error: planted", "it asks for https://b"])

    def test_before_an_opening(self):
        self.assertEqual(self.browser(THROWN), ["Uncaught Error: planted"])
        self.assertEqual(self.browser(asked("http://a"), asked("file:///b"), THROWN), ["it asks for http://a", "Uncaught Error: planted"])
        self.assertEqual(self.browser(asked("file:///b")), [])


if __name__ == "__main__":
    unittest.main()
