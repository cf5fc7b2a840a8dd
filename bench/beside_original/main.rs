//! Expands the macros of standard input by the original crates, as the program `expand` does: those
//! defined at the top level, where they are called behind that, in results too. It prints the
//! tokens, and ends with status 1 where a call cannot be expanded, which standard error tells.
//! Other than `expand`, it keeps the `;` behind a call that stands for an item.
use std::collections::HashMap;
use std::fmt::Write as _;
use std::io::{Read, Write as _};
use std::process::ExitCode;

use intern::{Symbol, sym};
use mbe::{DeclarativeMacro, MacroCallStyle};
use span::{Edition, EditionedFileId, FileId, ROOT_ERASED_FILE_AST_ID, SpanAnchor, SyntaxContext};
use tt::{
    DelimiterKind, Ident, Leaf, Punct, Spacing, Subtree, TokenTreesView, TopSubtree, TtElement,
    TtIter,
};

const EDITION: Edition = Edition::Edition2024;
/// How many levels of calls are expanded.
const DEPTH: usize = 128;

/// A call, or a definition, behind its name.
type Group<'a> = (Subtree, TtIter<'a>);

#[derive(Default)]
struct Expander {
    database: salsa::DatabaseImpl,
    macros: HashMap<Symbol, DeclarativeMacro>,
    printed: String,
    faults: String,
}

impl Expander {
    /// Expands trees that so many levels of calls have given.
    fn expand(&mut self, trees: TokenTreesView<'_>, level: usize, is_top: bool) {
        let mut rest = trees.iter();
        // How many colons stand before the next tree.
        let mut colons = 0;
        while let Some(tree) = rest.next() {
            match tree {
                TtElement::Leaf(Leaf::Ident(name)) => {
                    if is_top && name.sym == sym::macro_rules && self.define(&mut rest) {
                        continue;
                    }
                    if colons == 2 || !self.call(&name, &mut rest, level) {
                        self.print(&Leaf::Ident(name));
                    }
                    colons = 0;
                }
                TtElement::Leaf(leaf) => {
                    colons = if is_colon(&leaf) { colons + 1 } else { 0 };
                    self.print(&leaf);
                }
                TtElement::Subtree(group, inner) => {
                    colons = 0;
                    let (open, close) = signs(group.delimiter.kind);
                    self.printed.push_str(open);
                    self.expand(inner.remaining(), level, false);
                    self.printed.push_str(close);
                }
            }
        }
    }

    /// Takes the definition whose `macro_rules` was read, if that is one.
    fn define(&mut self, rest: &mut TtIter<'_>) -> bool {
        let mut ahead = rest.clone();
        let (Ok(()), Ok(name), Ok(group)) = (
            ahead.expect_char('!'),
            ahead.expect_ident(),
            ahead.expect_subtree(),
        ) else {
            return false;
        };
        if group.0.delimiter.kind != DelimiterKind::Brace {
            _ = ahead.expect_char(';');
        }
        let definition = DeclarativeMacro::parse_macro_rules(&tree_of(group), |_| EDITION);
        if let Some(error) = definition.err() {
            _ = writeln!(self.faults, "{}: {error}", name.sym);
        }
        self.macros.insert(name.sym, definition);
        *rest = ahead;
        true
    }

    /// Expands the call that begins with this name, if that is one.
    fn call(&mut self, first: &Ident, rest: &mut TtIter<'_>, level: usize) -> bool {
        let mut ahead = rest.clone();
        let mut name = first.clone();
        if first.sym == sym::dollar_crate {
            let (Ok(()), Ok(()), Ok(last)) = (
                ahead.expect_char(':'),
                ahead.expect_char(':'),
                ahead.expect_ident(),
            ) else {
                return false;
            };
            name = last;
        }
        let (Ok(()), Ok(group)) = (ahead.expect_char('!'), ahead.expect_subtree()) else {
            return false;
        };
        let Some(definition) = self.macros.get(&name.sym) else {
            return false;
        };
        if level == DEPTH {
            _ = writeln!(self.faults, "{}: too deep", name.sym);
            return false;
        }
        let argument = tree_of(group);
        let result = definition.expand(
            &self.database,
            &argument,
            |_| (),
            MacroCallStyle::FnLike,
            name.span,
        );
        if let Some(error) = result.err {
            _ = writeln!(self.faults, "{}: {error}", name.sym);
        }
        *rest = ahead;
        self.expand(result.value.0.view().strip_invisible(), level + 1, false);
        true
    }

    fn print(&mut self, leaf: &Leaf) {
        match leaf {
            // The definitions are of the text's own crate.
            Leaf::Ident(name) if name.sym == sym::dollar_crate => self.printed.push_str("crate"),
            Leaf::Ident(name) => {
                self.printed.push_str(name.is_raw.as_str());
                self.printed.push_str(name.sym.as_str());
            }
            Leaf::Punct(punct) => self.printed.push(punct.char),
            Leaf::Literal(literal) => _ = write!(self.printed, "{literal}"),
        }
        if !matches!(
            leaf,
            Leaf::Punct(Punct {
                spacing: Spacing::Joint,
                ..
            })
        ) {
            self.printed.push(' ');
        }
    }
}

fn is_colon(leaf: &Leaf) -> bool {
    matches!(leaf, Leaf::Punct(Punct { char: ':', .. }))
}

fn signs(kind: DelimiterKind) -> (&'static str, &'static str) {
    match kind {
        DelimiterKind::Parenthesis => ("( ", ") "),
        DelimiterKind::Brace => ("{ ", "} "),
        DelimiterKind::Bracket => ("[ ", "] "),
        DelimiterKind::Invisible => ("", ""),
    }
}

fn tree_of((group, inner): Group<'_>) -> TopSubtree {
    TopSubtree::from_token_trees(group.delimiter, inner.remaining())
}

fn main() -> ExitCode {
    let mut text = String::new();
    if let Err(error) = std::io::stdin().read_to_string(&mut text) {
        eprintln!("{error}");
        return ExitCode::from(2);
    }
    let anchor = SpanAnchor {
        file_id: EditionedFileId::new(FileId::from_raw(0), EDITION),
        ast_id: ROOT_ERASED_FILE_AST_ID,
    };
    let context = SyntaxContext::root(EDITION);
    let Some(tree) = syntax_bridge::parse_to_token_tree(EDITION, anchor, context, &text) else {
        eprintln!("the text is not read");
        return ExitCode::from(2);
    };
    let mut expander = Expander::default();
    expander.expand(tree.view().strip_invisible(), 0, true);
    if let Err(error) = std::io::stdout().write_all(expander.printed.as_bytes()) {
        eprintln!("{error}");
        return ExitCode::from(2);
    }
    eprint!("{}", expander.faults);
    ExitCode::from(u8::from(!expander.faults.is_empty()))
}
