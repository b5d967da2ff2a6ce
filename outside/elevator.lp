% The elevator of source 004, section 4: its Listing 1 up to line 14 and the facts of its instances, each atom with its
% instant at the end. The script gives two constants: the floors, and the horizon, which is how many actions there are
% and the number of the last instant.

floor(1..floors).
instant(0..horizon).

% At first the elevator stands at the middle floor and is called to the lowest and to the highest.
at((floors + 1) / 2, 0).
called((1; floors), 0).

% One action at each instant but the last. The way up ends at the highest floor, the way down at the lowest.
{up(T); down(T); serve(T); wait(T)} = 1 :- instant(T), T < horizon.
:- up(T), at(X, T), not floor(X + 1).
:- down(T), at(X, T), not floor(X - 1).

% What an action leaves behind: the elevator moves or stays, and a call lasts until its floor is served.
at(X + 1, T) :- instant(T), up(T - 1), at(X, T - 1).
at(X - 1, T) :- instant(T), down(T - 1), at(X, T - 1).
at(X, T) :- instant(T), at(X, T - 1), not up(T - 1), not down(T - 1).
served(X, T) :- serve(T), at(X, T).
called(X, T) :- instant(T), called(X, T - 1), not served(X, T - 1).

% The goal: at the last instant nobody calls.
:- called(X, horizon).

% Ready to serve: the elevator stands at a floor that it is called to. Only the rule asks for it.
ready(T) :- called(X, T), at(X, T).
