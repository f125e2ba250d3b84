-- | Functions and types that refer to one another.
module Mutual
  ( isEven
  , isOdd
  , Tree (..)
  , Forest (..)
  , size
  , sizeForest
  , flatten
  , flattenForest
  , mirror
  , mapTree
  , Stmt (..)
  , Expr (..)
  , countStmt
  , countExpr
  , assigned
  , evalExpr
  , exec
  , male
  , female
  , alternate
  , ping
  ) where

import Nat

isEven, isOdd :: Nat -> Bool
isEven Zero = True
isEven (Succ n) = isOdd n
isOdd Zero = False
isOdd (Succ n) = isEven n

data Tree a = Tree a (Forest a)
  deriving (Eq, Show)

data Forest a = Nil | Cons (Tree a) (Forest a)
  deriving (Eq, Show)

size :: Tree a -> Nat
size (Tree _ ts) = 1 + sizeForest ts

sizeForest :: Forest a -> Nat
sizeForest Nil = 0
sizeForest (Cons t ts) = size t + sizeForest ts

flatten :: Tree a -> [a]
flatten (Tree x ts) = x : flattenForest ts

flattenForest :: Forest a -> [a]
flattenForest Nil = []
flattenForest (Cons t ts) = flatten t ++ flattenForest ts

mirror :: Tree a -> Tree a
mirror (Tree x ts) = Tree x (turned ts Nil)
  where
    turned Nil done = done
    turned (Cons u us) done = turned us (Cons (mirror u) done)

mapTree :: (a -> b) -> Tree a -> Tree b
mapTree f (Tree x ts) = Tree (f x) (mapForest f ts)

mapForest :: (a -> b) -> Forest a -> Forest b
mapForest _ Nil = Nil
mapForest f (Cons t ts) = Cons (mapTree f t) (mapForest f ts)

-- | Statements that hold expressions, and expressions that hold statements.
data Stmt = Assign Nat Expr | Block [Stmt] | When Expr Stmt | Repeat Nat Stmt
  deriving (Eq, Show)

data Expr = Lit Nat | Var Nat | Add Expr Expr | Do Stmt Expr
  deriving (Eq, Show)

countStmt :: Stmt -> Nat
countStmt (Assign _ e) = 1 + countExpr e
countStmt (Block ss) = foldr (\s n -> countStmt s + n) 1 ss
countStmt (When e s) = 1 + countExpr e + countStmt s
countStmt (Repeat _ s) = 1 + countStmt s

countExpr :: Expr -> Nat
countExpr (Add a b) = 1 + countExpr a + countExpr b
countExpr (Do s e) = 1 + countStmt s + countExpr e
countExpr _ = 1

assigned :: Stmt -> [Nat]
assigned (Assign x e) = x : inside e
assigned (Block ss) = concatMap assigned ss
assigned (When e s) = inside e ++ assigned s
assigned (Repeat _ s) = assigned s

inside :: Expr -> [Nat]
inside (Add a b) = inside a ++ inside b
inside (Do s e) = assigned s ++ inside e
inside _ = []

type Store = [(Nat, Nat)]

fetch :: Nat -> Store -> Nat
fetch _ [] = 0
fetch x ((y, n) : rest) = if x == y then n else fetch x rest

evalExpr :: Expr -> Store -> (Nat, Store)
evalExpr (Lit n) st = (n, st)
evalExpr (Var x) st = (fetch x st, st)
evalExpr (Add a b) st =
  let (m, st1) = evalExpr a st
      (n, st2) = evalExpr b st1
   in (m + n, st2)
evalExpr (Do s e) st = evalExpr e (exec s st)

exec :: Stmt -> Store -> Store
exec (Assign x e) st = case evalExpr e st of
  (n, st') -> (x, n) : st'
exec (Block []) st = st
exec (Block (s : ss)) st = exec (Block ss) (exec s st)
exec (When e s) st = case evalExpr e st of
  (0, st') -> st'
  (_, st') -> exec s st'
exec (Repeat n s) st = times n st
  where
    times 0 st' = st'
    times k st' = times (k - 1) (exec s st')

-- | Hofstadter's two sequences.
male, female :: Nat -> Nat
male 0 = 0
male n = n - female (male (n - 1))
female 0 = 1
female n = n - male (female (n - 1))

-- | The members of two lists by turns.
alternate :: [a] -> [a] -> [a]
alternate [] ys = ys
alternate (x : xs) ys = x : alternate ys xs

ping :: Nat -> Nat -> Nat
ping 0 n = n
ping m n = pong n (m - 1)

pong :: Nat -> Nat -> Nat
pong 0 m = m
pong n m = ping m (n - 1)

-- >>> map isEven [0, 1, 2]
-- [True,False,True]
-- >>> flatten (Tree 1 (Cons (Tree 2 Nil) (Cons (Tree (3 :: Nat) Nil) Nil)))
-- [1,2,3]
-- >>> mirror (Tree 1 (Cons (Tree 2 Nil) (Cons (Tree (3 :: Nat) Nil) Nil)))
-- Tree 1 (Cons (Tree 3 Nil) (Cons (Tree 2 Nil) Nil))
-- >>> countStmt (Block [Assign 0 (Lit 1), When (Var 0) (Assign 1 (Add (Var 0) (Lit 2)))])
-- 9
-- >>> exec (Block [Assign 0 (Lit 2), Repeat 2 (Assign 0 (Add (Var 0) (Var 0)))]) []
-- [(0,8),(0,4),(0,2)]
-- >>> evalExpr (Do (Assign 3 (Lit 4)) (Add (Var 3) (Lit 1))) []
-- (5,[(3,4)])
-- >>> assigned (When (Do (Assign 3 (Lit 4)) (Var 3)) (Assign 5 (Lit 0)))
-- [3,5]
-- >>> map male [0, 1, 2, 3]
-- [0,0,1,2]
-- >>> alternate [1, 2, 3] [7, 8 :: Nat]
-- [1,7,2,8,3]
-- >>> ping 2 3
-- 1
