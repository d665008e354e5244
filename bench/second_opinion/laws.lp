% The drawings of a station that keep the seven laws, as answers of clingo: written from docs/trust/laws.md, and from nothing of the program.
% Facts: node(N), rank(N,R) by mileage; edge(E,West,East); end(N,E), joint(N,E,F), switch(N,Legs,Branch,Trunk,Straight,Diverging) with
% Legs 1 in the east and -1 in the west, Branch 1 upper and -1 lower; crossing(N,RisingWest,RisingEast,FallingWest,FallingEast);
% above(E,F), overlap(E,F). Numbers: width, height, least.

% law 1 of nodes: each has one column and one row of the grid
1 { x(N,0..width) } 1 :- node(N).
1 { y(N,0..height) } 1 :- node(N).

% a line: A columns that rise (1) or fall (-1), then L level ones, then B that rise or fall. The eleven shapes are those without a rise and
% a fall that meet; a line that rises or falls from end to end has its columns in A.
1 { first(E,0,0); first(E,-1,1..height); first(E,1,1..height) } 1 :- edge(E,_,_).
1 { level(E,0..width) } 1 :- edge(E,_,_).
1 { last(E,0,0); last(E,-1,1..height); last(E,1,1..height) } 1 :- edge(E,_,_).
:- level(E,0), first(E,_,0).
:- level(E,0), last(E,_,B), B > 0.
span(E,A+L+B) :- first(E,_,A), level(E,L), last(E,_,B), A+L+B <= width.
:- edge(E,_,_), not span(E,_).
rise(E,D*A+F*B) :- first(E,D,A), last(E,F,B).
:- edge(E,V,W), x(V,X), x(W,Z), span(E,S), Z-X != S.
:- edge(E,V,W), y(V,Y), y(W,Z), rise(E,R), Z-Y != R.
% law 1 of lines: the row between the first and the last piece is one of the grid
inner(E,Y+D*A) :- edge(E,V,_), y(V,Y), first(E,D,A).
:- inner(E,R), R < 0.
:- inner(E,R), R > height.

% law 2
:- rank(U,R), rank(V,S), R < S, x(U,X), x(V,Z), X > Z.
:- rank(U,R), rank(V,R), x(U,X), x(V,Z), X != Z.

% law 3
:- span(E,S), S < least.

% law 4: the slopes at the two ends of a line, and at each node
at(V,E,D) :- edge(E,V,_), first(E,D,A), A > 0.
at(V,E,0) :- edge(E,V,_), first(E,_,0).
at(W,E,F) :- edge(E,_,W), last(E,F,B), B > 0.
at(W,E,0) :- edge(E,_,W), last(E,_,0), level(E,L), L > 0.
at(W,E,D) :- edge(E,_,W), level(E,0), first(E,D,_).
:- end(N,E), not at(N,E,0).
:- joint(N,E,F), at(N,E,S), at(N,F,T), S != T.
:- switch(N,_,_,T,L,_), at(N,T,S), at(N,L,U), S != U.
:- switch(N,Legs,Branch,T,_,D), at(N,T,S), at(N,D,U), U != S+Legs*Branch.
:- crossing(N,W,E,_,_), at(N,W,S), at(N,E,U), S != U.
:- crossing(N,_,_,W,E), at(N,W,S), at(N,E,U), S != U.
:- crossing(N,R,_,F,_), at(N,R,S), at(N,F,U), S <= U.

% law 5
:- node(U), node(V), U < V, x(U,X), x(V,X), y(U,Y), y(V,Y).

% laws 6 and 7: by the row of a line in each of its columns, but those of nodes at which both lines end
row(E,X+C,Y+D*C) :- edge(E,V,_), x(V,X), y(V,Y), first(E,D,A), C = 0..A, X+C <= width.
row(E,X+C,R) :- edge(E,V,_), x(V,X), first(E,_,A), level(E,L), inner(E,R), C = A..A+L, X+C <= width.
row(E,Z-C,Y-F*C) :- edge(E,_,W), x(W,Z), y(W,Y), last(E,F,B), C = 0..B, Z-C >= 0.
meets(E,N) :- edge(E,N,_).
meets(E,N) :- edge(E,_,N).
spared(E,F,X) :- meets(E,N), meets(F,N), E != F, x(N,X).
compared(E,F) :- above(E,F).
compared(E,F) :- overlap(E,F).
compared(F,E) :- overlap(E,F).
isnt_over(E,F) :- compared(E,F), row(E,X,R), row(F,X,S), R <= S, not spared(E,F,X).
:- above(E,F), isnt_over(E,F).
:- overlap(E,F), not above(E,F), not above(F,E), isnt_over(E,F), isnt_over(F,E).

#show x/2. #show y/2. #show first/3. #show level/2. #show last/3.
