"""Bulwynef: stores of evidence, nodes that answer for what they did, and proofs that a third party checks.

    from bulwynef import Key, Node, Program, Store, check_proof, directory, explain_proof
    from bulwynef import audit_challenge, send_challenge, statement_of, statements_of

Everything that these do is done by the proved library behind the C interface; this package hands bytes to it and back.
"""

from .errors import Refusal, SENTENCES
from .items import audit_challenge, send_challenge, statement_of, statements_of
from .journals import Journal, JournalInUse, texts_in
from .kept import KeptNode, KeptStore
from .library import Program
from .nodes import Key, Node, directory
from .stores import Indication, Store, check_proof, explain_proof

__version__ = "0.9.0"
__all__ = ["Indication", "Journal", "JournalInUse", "KeptNode", "KeptStore", "Key", "Node", "Program", "Refusal", "SENTENCES", "Store"]
__all__ += ["audit_challenge", "check_proof", "directory", "explain_proof", "send_challenge", "statement_of", "statements_of", "texts_in"]
