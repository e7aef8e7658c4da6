"""tools/clauses: what of the documents it refuses."""

import unittest
from unittest import mock

from shared import loaded, text_of

REAL = loaded("clauses")


class Clauses(unittest.TestCase):
    """What the tool says of the repository, and of documents that differ."""

    def found(self, name, old, new):
        """The complaints if this document has `new` for `old`."""
        def read(path):
            text = text_of(path)
            if path == name:
                self.assertIn(old, text)
            return text.replace(old, new) if path == name else text
        with mock.patch.object(REAL, "text_of", read):
            return [fault for document in (REAL.PROVED, REAL.RESTARTABLE) for fault in REAL.faults_in(document)] + list(
                REAL.other_figures()) + list(REAL.other_rows()) + list(REAL.other_looks()) + list(REAL.other_changes())

    def test_the_repository(self):
        self.assertEqual(self.found(REAL.PROVED, "#", "#"), [])

    def test_wrong_documents(self):
        rows = [
            (REAL.RESTARTABLE, "`fewer` of `unwind_one`", "`fewest` of `unwind_one`", "'fewest' is not in crates/its_pclsr/src/unwinding.rt"),
            (REAL.RESTARTABLE, "its_stepped/specs/Duty.antt", "its_stepped/specs/Dutie.antt", "crates/its_stepped/specs/Dutie.antt is not there"),
            (REAL.RESTARTABLE, "| 339 |", "| 340 |", "'a tick of SIOT to a console' is 340"),
            (REAL.PROVED, "| `its_top/specs/Outcomes.antt` |", "| `its_top/specs/Outcome.antt` |", "crates/its_top/specs/Outcome.antt is not there"),
            (REAL.PROVED, "`its_plain/specs/Promise/LinkLedger`", "`its_plain/specs/Promise/Linkledgers`", "crates/its_plain/specs/Promise/Linkledgers is not there"),
            (REAL.MACHINE, "| `page_made` |", "| `page_set` |", "'page_set' is no constructor of crates/its_security/specs/Integrity.antt"),
            (REAL.MACHINE, "| `page_made` |", "| page_made |", "'page_made' of crates/its_security/specs/Integrity.antt has no row"),
            (REAL.MACHINE, "| `symbols_same` |", "| `symbols_none` |", "'symbols_same' of crates/its_security/specs/Integrity.antt has no row"),
            (REAL.INTEGRITY, "  word_stored : ", "  two_stored : ", "'two_stored' of crates/its_security/specs/Integrity.antt has no row"),
            (REAL.INTEGRITY, "  bytes_same : ", "  all_changes : ConsoleMay m n j c\n  bytes_same : ",
             "'all_changes' of crates/its_security/specs/Integrity.antt has no row"),
            (REAL.MACHINE, "| SLEEP, REALT |", "| SLEEP |", "REALT of crates/its_security/specs/Looks.antt has no row"),
            (REAL.MACHINE, "| SLEEP, REALT |", "| SLEEP, REALT, HANG |", "HANG looks at nothing in crates/its_security/specs/Looks.antt"),
            (REAL.MACHINE, "| `Pages` |", "| Pages |", "'Pages' of crates/its_security/specs/Tables.antt has no row"),
            (REAL.MACHINE, "| CORBLK, UCLOSE, LOGOUT |", "| CORBLK, LOGOUT |", "'Pages' can be changed by CORBLK, LOGOUT, UCLOSE"),
            (REAL.TABLES, "changes Siot Bytes = true", "changes Siot Bytes = false", "'Bytes' can be changed by `.IOT`"),
            (REAL.LOOKS, "Looks j m n q a (Some Sleep) =", "Looks j m n q a (Some Hang) =", "HANG of crates/its_security/specs/Looks.antt has no row"),
        ]
        for name, old, new, words in rows:
            found = self.found(name, old, new)
            self.assertTrue(any(words in fault for fault in found), (old, found))


if __name__ == "__main__":
    unittest.main()
