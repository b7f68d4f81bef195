:- module subsets.
:- import_module int, list.

% A search that fails often: the weights of a list that make up a sum together.

:- pred loads(int::in, list(int)::out) is nondet.
loads(Sum, Load) :- weights(Weights), load(Weights, Sum, Load).

:- pred load(list(int)::in, int::in, list(int)::out) is nondet.
load([], 0, []).
load([Weight | Weights], Sum, [Weight | Load]) :-
    Weight =< Sum,
    load(Weights, Sum - Weight, Load).
load([_ | Weights], Sum, Load) :- load(Weights, Sum, Load).

:- pred weights(list(int)::out) is det.
weights([
    6089, 2917, 4409, 1129, 5903, 3361, 787, 5381, 2243, 4657, 1471, 6733, 3877, 911, 2741, 5167, 1877, 4073, 3019, 6421
]).
