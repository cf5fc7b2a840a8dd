"""Expands a text, edits it, and expands it again: what each token of the answer comes from."""

from filgordd import Session, Unread


def show(session: Session) -> None:
    try:
        expansion = session.expand()
    except Unread as unread:
        print("unread:", unread)
        return
    print(expansion.printed, end="")
    printed = expansion.printed.encode()
    for token in expansion.tokens:
        word = printed[token.range.start : token.range.end].decode()
        print(f"  {word} from {token.origin.start} to {token.origin.end}")
    for fault in expansion.faults:
        print(f"  fault: {fault.kind.name} at {fault.range.start} to {fault.range.end}")
    print("  expanded:", expansion.expanded)


with Session("macro_rules! p { ($a:ident $b:tt) => { $b $a } } p!{ x y }") as session:
    show(session)
    session.edit(55, 56, "z")
    show(session)
    session.edit(53, 54, "1")
    show(session)
    session.edit(57, 58, "")
    show(session)
