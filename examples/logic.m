:- module logic.
:- import_module list, bool.

% Formulas over variables, what they are worth, and when they always hold.
:- type formula
    --->    variable(string)
    ;       constant(bool)
    ;       negation(formula)
    ;       both(formula, formula)
    ;       either(formula, formula).
:- type setting ---> setting(string, bool).

:- pred truth(bool).
:- mode truth(out) is multi.
truth(no).
truth(yes).

:- pred opposite(bool, bool).
:- mode opposite(in, out) is det.
:- mode opposite(out, in) is det.
opposite(no, yes).
opposite(yes, no).

% The variables of a formula, each once, in the order in which they first occur.
:- pred variables(formula::in, list(string)::in, list(string)::out) is det.
variables(variable(Name), Before, After) :-
    ( if member(Name, Before) then After = Before else append(Before, [Name], After) ).
variables(constant(_), Names, Names).
variables(negation(F), Before, After) :- variables(F, Before, After).
variables(both(F, G), Before, After) :- variables(F, Before, Between), variables(G, Between, After).
variables(either(F, G), Before, After) :- variables(F, Before, Between), variables(G, Between, After).

% Each way to set the variables.
:- pred settings(list(string)::in, list(setting)::out) is multi.
settings([], []).
settings([Name | Names], [setting(Name, Value) | Others]) :- truth(Value), settings(Names, Others).

% A variable that is not set has no value.
:- pred value(formula::in, list(setting)::in, bool::out) is semidet.
value(variable(Name), Settings, Value) :- set(Name, Settings, Value).
value(constant(Value), _, Value).
value(negation(F), Settings, Value) :- value(F, Settings, Inner), opposite(Inner, Value).
value(both(F, G), Settings, Value) :-
    value(F, Settings, Left),
    value(G, Settings, Right),
    ( if Left = yes then Value = Right else Value = no ).
value(either(F, G), Settings, Value) :-
    value(F, Settings, Left),
    value(G, Settings, Right),
    ( if Left = no then Value = Right else Value = yes ).

:- pred set(string::in, list(setting)::in, bool::out) is semidet.
set(Name, [setting(Other, Value) | Settings], Found) :-
    ( if Name = Other then Found = Value else set(Name, Settings, Found) ).

% A setting under which the formula holds.
:- pred model(formula::in, list(setting)::out) is nondet.
model(F, Settings) :- variables(F, [], Names), settings(Names, Settings), value(F, Settings, yes).

:- pred always(formula::in) is semidet.
always(F) :- not model(negation(F), _).

:- pred implies(formula::in, formula::in) is semidet.
implies(F, G) :- always(either(negation(F), G)).

% The same formula with negations at variables alone.
:- pred normal(formula::in, bool::in, formula::out) is det.
normal(variable(Name), no, variable(Name)).
normal(variable(Name), yes, negation(variable(Name))).
normal(constant(Value), no, constant(Value)).
normal(constant(Value), yes, constant(Other)) :- opposite(Value, Other).
normal(negation(F), Negated, G) :- opposite(Negated, Other), normal(F, Other, G).
normal(both(F, G), no, both(H, I)) :- normal(F, no, H), normal(G, no, I).
normal(both(F, G), yes, either(H, I)) :- normal(F, yes, H), normal(G, yes, I).
normal(either(F, G), no, either(H, I)) :- normal(F, no, H), normal(G, no, I).
normal(either(F, G), yes, both(H, I)) :- normal(F, yes, H), normal(G, yes, I).
