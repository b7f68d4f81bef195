:- module ledger.
:- import_module int, list, maybe, require.

% Accounts and what is paid into, out of and between them. Amounts are in cents.
:- type account ---> account(string, int).
:- type entry
    --->    opened(string)
    ;       paid_in(string, int)
    ;       paid_out(string, int)
    ;       moved(string, string, int).

% The entries that the goals below are about.
:- pred example(list(entry)::out) is det.
example([
    opened("rent"), opened("food"),
    paid_in("rent", 90000), paid_in("food", 25000),
    paid_out("food", 4250), moved("rent", "food", 5000), paid_out("rent", 80000)
]).

% The accounts behind the entries, in the order in which they were opened.
:- pred book(list(entry)::in, list(account)::in, list(account)::out) is det.
book([], Accounts, Accounts).
book([Entry | Entries], Before, After) :-
    enter(Entry, Before, Between),
    book(Entries, Between, After).

:- pred enter(entry::in, list(account)::in, list(account)::out) is det.
enter(opened(Name), Before, After) :-
    ( if member(account(Name, _), Before) then
        error("an account is opened twice")
    else
        append(Before, [account(Name, 0)], After)
    ).
enter(paid_in(Name, Amount), Before, After) :-
    change(Name, Amount, Before, After).
enter(paid_out(Name, Amount), Before, After) :-
    change(Name, -Amount, Before, After).
enter(moved(From, To, Amount), Before, After) :-
    change(From, -Amount, Before, Between),
    change(To, Amount, Between, After).

:- pred change(string::in, int::in, list(account)::in, list(account)::out) is det.
change(_, _, [], _) :- error("no such account").
change(Name, Amount, [account(Other, Balance) | Accounts], After) :-
    ( if Name = Other then
        New = Balance + Amount,
        ( if New < 0 then
            error("an account is overdrawn")
        else
            After = [account(Name, New) | Accounts]
        )
    else
        change(Name, Amount, Accounts, Others),
        After = [account(Other, Balance) | Others]
    ).

:- pred total(list(account)::in, int::out) is det.
total([], 0).
total([account(_, Balance) | Accounts], Balance + Others) :- total(Accounts, Others).

:- pred balance(list(account)::in, string::in, maybe(int)::out) is det.
balance([], _, no).
balance([account(Other, Balance) | Accounts], Name, Found) :-
    ( if Name = Other then
        Found = yes(Balance)
    else
        balance(Accounts, Name, Found)
    ).

% Each entry that concerns an account, with the sign of what it does to it.
:- pred concerns(list(entry)::in, string::in, int::out) is nondet.
concerns(Entries, Name, Amount) :-
    member(Entry, Entries),
    (
        Entry = paid_in(Name, Amount)
    ;
        Entry = paid_out(Name, Out),
        Amount = -Out
    ;
        Entry = moved(From, To, Moved),
        (
            From = Name,
            Amount = -Moved
        ;
            To = Name,
            Amount = Moved
        )
    ).
