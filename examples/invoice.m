:- module invoice.
:- import_module int.

:- pred three_of(int::in, int::out) is det.
three_of(Price, Cost) :-
    Pair = Price + Price,
    Cost = Pair + Price.

:- pred dozen_of(int::in, int::out) is det.
dozen_of(Price, Cost) :-
    three_of(Price, Three),
    Six = Three + Three,
    Cost = Six + Six.

:- pred postage(int::out) is det.
postage(Cost) :-
    Stamp = 385,
    Box = 120,
    Cost = Stamp + Box.

:- pred total(int::in, int::out, int::out) is det.
total(Goods, Posted, Total) :-
    postage(Posted),
    Total = Goods + Posted.

:- pred tea_set(int::out, int::in, int::in, int::out, int::out) is det.
tea_set(Goods, Cups, Pot, Posted, Total) :-
    Goods = Cups + Pot,
    total(Goods, Posted, Total).
