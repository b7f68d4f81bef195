% Tables of facts whose keys are strings: the price of what is bought, and the tax on it.

main :- bills(9000, 0, Sum), write('Sum = '), write(Sum), nl.

bills(Times, Before, Sum) :-
    (   Times =:= 0 ->
        Sum = Before
    ;   basket(Names),
        bill(Names, 0, Total),
        Fewer is Times - 1,
        Behind is (Before + Times * Total) mod 1000003,
        bills(Fewer, Behind, Sum)
    ).

bill([], Total, Total).
bill([Name | Names], Before, Total) :-
    price(Name, Price),
    kind(Name, Kind),
    tax(Kind, Percent),
    Behind is Before + Price + (Price * Percent) // 100,
    bill(Names, Behind, Total).

basket([
    bread, milk, soap, eggs, pencil, apples, tea, newspaper, rice, candle,
    cheese, wine, salt, brush, carrots, atlas, honey, rope, butter, stamps
]).

price(apples, 249).
price(atlas, 3500).
price(bread, 329).
price(brush, 480).
price(butter, 219).
price(candle, 150).
price(carrots, 129).
price(cheese, 560).
price(coffee, 699).
price(eggs, 310).
price(honey, 545).
price(lamp, 2990).
price(milk, 119).
price(newspaper, 340).
price(novel, 1200).
price(oil, 899).
price(pencil, 95).
price(rice, 259).
price(rope, 780).
price(salt, 69).
price(soap, 175).
price(stamps, 850).
price(tea, 365).
price(wine, 799).

kind(apples, food).
kind(atlas, print).
kind(bread, food).
kind(brush, goods).
kind(butter, food).
kind(candle, goods).
kind(carrots, food).
kind(cheese, food).
kind(coffee, food).
kind(eggs, food).
kind(honey, food).
kind(lamp, goods).
kind(milk, food).
kind(newspaper, print).
kind(novel, print).
kind(oil, food).
kind(pencil, goods).
kind(rice, food).
kind(rope, goods).
kind(salt, food).
kind(soap, goods).
kind(stamps, post).
kind(tea, food).
kind(wine, drink).

tax(drink, 19).
tax(food, 7).
tax(goods, 19).
tax(post, 0).
tax(print, 7).
