"""What the server can do, which depends on what its program can, and what carries out each request about a text."""
from collections.abc import Callable
from typing import Any

from umc.lsp import actions, colours, completion, hints, hover, layout, navigation, outline, rename, signatures
from umc.lsp.documents import Snapshot
from umc.lsp.positions import Json
from umc.program import Program
from umc.version import number

INCREMENTAL = 2
ANSWERS: dict[str, Callable[[Snapshot, Json], Any]] = {
    "textDocument/hover": hover.hover,
    "textDocument/completion": completion.completion,
    "textDocument/signatureHelp": signatures.signature_help,
    "textDocument/definition": navigation.definition,
    "textDocument/references": navigation.references,
    "textDocument/documentHighlight": navigation.highlights,
    "textDocument/documentSymbol": outline.symbols,
    "textDocument/foldingRange": outline.folding,
    "textDocument/semanticTokens/full": colours.semantic_tokens,
    "textDocument/semanticTokens/range": colours.semantic_tokens_in,
    "textDocument/prepareRename": rename.prepare,
    "textDocument/rename": rename.rename,
    "textDocument/formatting": layout.formatting,
    "textDocument/inlayHint": hints.inlay_hints,
    "textDocument/codeAction": actions.code_actions,
}


def of_server(program: Program) -> Json:
    """The answer to initialize."""
    return {
        "capabilities": {
            "positionEncoding": "utf-16",
            "textDocumentSync": {"openClose": True, "change": INCREMENTAL},
            "hoverProvider": True,
            "completionProvider": {"triggerCharacters": [".", "<", "'"]},
            "signatureHelpProvider": {"triggerCharacters": [" ", "("]},
            "definitionProvider": True,
            "referencesProvider": True,
            "documentHighlightProvider": True,
            "documentSymbolProvider": True,
            "foldingRangeProvider": True,
            "semanticTokensProvider": {"legend": {"tokenTypes": colours.TYPES, "tokenModifiers": colours.MODIFIERS},
                                       "full": True, "range": True},
            "renameProvider": {"prepareProvider": True},
            "documentFormattingProvider": program.has("tidy"),
            "inlayHintProvider": True,
            "codeActionProvider": {"codeActionKinds": [actions.QUICK_FIX, actions.REWRITE]},
        },
        "serverInfo": {"name": "um lsp", "version": number()},
    }
