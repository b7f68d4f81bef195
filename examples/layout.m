:- module layout.
:- import_module int, list.

% Lays out documents on lines of a width: a group stands on one line where it fits there, and else each of its breaks ends
% a line.
:- type document
    --->    text(string, int)               % a text and its width, since strings have no length here
    ;       break                           % a blank, or the end of a line
    ;       indented(int, list(document))   % lines that end in it are followed by so many more blanks
    ;       group(list(document)).

% A line is the number of blanks in front of it, and the texts behind them.
:- type line ---> line(int, list(string)).

% What is still to come: a document with the indentation of the lines that end in it, and whether they do.
:- type item ---> item(int, style, document).
:- type style ---> flat ; broken.

:- pred layout(int::in, list(document)::in, list(line)::out) is det.
layout(Width, Documents, Lines) :-
    in_front(Documents, 0, broken, [], Items),
    lay(Items, Width, 0, 0, [], Lines).

:- pred in_front(list(document)::in, int::in, style::in, list(item)::in, list(item)::out) is det.
in_front([], _, _, Items, Items).
in_front([Document | Documents], Indent, Style, Behind, [item(Indent, Style, Document) | Items]) :-
    in_front(Documents, Indent, Style, Behind, Items).

% Indent and Texts are of the line that is being filled, its last text first, and Column is its width so far.
:- pred lay(list(item)::in, int::in, int::in, int::in, list(string)::in, list(line)::out) is det.
lay([], _, _, Indent, Texts, [line(Indent, InOrder)]) :-
    reverse(Texts, InOrder).
lay([item(Inner, Style, Document) | Items], Width, Column, Indent, Texts, Lines) :-
    (
        Document = text(Text, TextWidth),
        lay(Items, Width, Column + TextWidth, Indent, [Text | Texts], Lines)
    ;
        Document = break,
        (
            Style = flat,
            lay(Items, Width, Column + 1, Indent, [" " | Texts], Lines)
        ;
            Style = broken,
            reverse(Texts, InOrder),
            lay(Items, Width, Inner, Inner, [], Others),
            Lines = [line(Indent, InOrder) | Others]
        )
    ;
        Document = indented(More, Documents),
        in_front(Documents, Inner + More, Style, Items, All),
        lay(All, Width, Column, Indent, Texts, Lines)
    ;
        Document = group(Documents),
        in_front(Documents, Inner, flat, Items, Flat),
        ( if fits(Flat, Width - Column) then
            All = Flat
        else
            in_front(Documents, Inner, broken, Items, All)
        ),
        lay(All, Width, Column, Indent, Texts, Lines)
    ).

% Whether what comes up to the end of the line has room. A comma behind a group stands on the line of its end, so it counts too.
:- pred fits(list(item)::in, int::in) is semidet.
fits(Items, Room) :-
    Room >= 0,
    (
        Items = []
    ;
        Items = [item(Indent, Style, Document) | Others],
        (
            Document = text(_, Width),
            fits(Others, Room - Width)
        ;
            Document = break,
            ( if Style = flat then fits(Others, Room - 1) else true )
        ;
            Document = indented(_, Documents),
            in_front(Documents, Indent, Style, Others, All),
            fits(All, Room)
        ;
            Document = group(Documents),
            in_front(Documents, Indent, Style, Others, All),
            fits(All, Room)
        )
    ).

% A term as a document: arguments stand on lines of their own where the whole does not fit.
:- type term ---> term(string, int, list(term)).

:- pred document(term::in, document::out) is det.
document(term(Name, Width, Arguments), Document) :-
    (
        Arguments = [],
        Document = text(Name, Width)
    ;
        Arguments = [Argument | Others],
        document(Argument, First),
        more_arguments(Others, Rest),
        Document = group([text(Name, Width), text("(", 1), indented(2, [First | Rest]), text(")", 1)])
    ).

:- pred more_arguments(list(term)::in, list(document)::out) is det.
more_arguments([], []).
more_arguments([Term | Terms], [text(",", 1), break, Document | Documents]) :-
    document(Term, Document),
    more_arguments(Terms, Documents).

:- pred show(int::in, term::in, list(line)::out) is det.
show(Width, Term, Lines) :-
    document(Term, Document),
    layout(Width, [Document], Lines).

% The term that the goals are about: f(alpha, g(beta, gamma), delta).
:- pred example(term::out) is det.
example(term("f", 1, [
    term("alpha", 5, []),
    term("g", 1, [term("beta", 4, []), term("gamma", 5, [])]),
    term("delta", 5, [])
])).
