-- | Symbolic calculus: derivatives, simpler expressions, and polynomials as lists of coefficients.
module Derivatives
  ( Expr (..)
  , derive
  , simplify
  , evalAt
  , degree
  , Poly
  , addP
  , mulP
  , evalP
  , deriveP
  , composeP
  , toPoly
  , expand
  , rewrite
  ) where

import Prelude hiding (length)
import Nat

data Expr
  = X
  | Const Nat
  | Expr :+: Expr
  | Expr :*: Expr
  | Pow Expr Nat
  deriving (Eq, Show)

infixl 6 :+:
infixl 7 :*:

derive :: Expr -> Expr
derive X = Const 1
derive (Const _) = Const 0
derive (f :+: g) = derive f :+: derive g
derive (f :*: g) = derive f :*: g :+: f :*: derive g
derive (Pow _ 0) = Const 0
derive (Pow f n) = Const n :*: Pow f (n - 1) :*: derive f

-- | A sum without zeros.
plus :: Expr -> Expr -> Expr
plus (Const 0) e = e
plus e (Const 0) = e
plus (Const m) (Const n) = Const (m + n)
plus d e = d :+: e

times :: Expr -> Expr -> Expr
times (Const 0) _ = Const 0
times _ (Const 0) = Const 0
times (Const 1) e = e
times e (Const 1) = e
times (Const m) (Const n) = Const (m * n)
times d e = d :*: e

simplify :: Expr -> Expr
simplify (f :+: g) = simplify f `plus` simplify g
simplify (f :*: g) = simplify f `times` simplify g
simplify (Pow f n) = case (simplify f, n) of
  (_, 0) -> Const 1
  (e, 1) -> e
  (e, _) -> Pow e n
simplify e = e

evalAt :: Nat -> Expr -> Nat
evalAt x X = x
evalAt _ (Const n) = n
evalAt x (f :+: g) = evalAt x f + evalAt x g
evalAt x (f :*: g) = evalAt x f * evalAt x g
evalAt x (Pow f n) = power n
  where
    base = evalAt x f
    power 0 = 1
    power k = base * power (k - 1)

degree :: Expr -> Nat
degree X = 1
degree (Const _) = 0
degree (f :+: g) = max (degree f) (degree g)
degree (f :*: g) = degree f + degree g
degree (Pow f n) = n * degree f

-- | Coefficients, that of the constant first.
type Poly = [Nat]

addP :: Poly -> Poly -> Poly
addP (a : as) (b : bs) = (a + b) : addP as bs
addP as [] = as
addP [] bs = bs

mulP :: Poly -> Poly -> Poly
mulP [] _ = []
mulP (a : as) bs = addP (map (a *) bs) (0 : mulP as bs)

evalP :: Poly -> Nat -> Nat
evalP p x = foldr (\a v -> a + x * v) 0 p

deriveP :: Poly -> Poly
deriveP [] = []
deriveP (_ : as) = zipWith (*) as (from 1 as)
  where
    from _ [] = []
    from n (_ : rest) = n : from (n + 1) rest

composeP :: Poly -> Poly -> Poly
composeP p q = foldr (\a r -> addP [a] (mulP q r)) [] p

toPoly :: Expr -> Poly
toPoly X = [0, 1]
toPoly (Const n) = [n]
toPoly (f :+: g) = addP (toPoly f) (toPoly g)
toPoly (f :*: g) = mulP (toPoly f) (toPoly g)
toPoly (Pow f n) = iter n
  where
    p = toPoly f
    iter 0 = [1]
    iter k = mulP p (iter (k - 1))

-- | Products of sums become sums of products.
expand :: Expr -> Expr
expand (f :+: g) = expand f :+: expand g
expand (f :*: g) = distribute (expand f) (expand g)
expand e = e

distribute :: Expr -> Expr -> Expr
distribute (a :+: b) e = distribute a e :+: distribute b e
distribute e (a :+: b) = distribute e a :+: distribute e b
distribute d e = d :*: e

-- | Applies a rule at all places, from the leaves up.
rewrite :: (Expr -> Maybe Expr) -> Expr -> Expr
rewrite rule = go
  where
    go (f :+: g) = try (go f :+: go g)
    go (f :*: g) = try (go f :*: go g)
    go (Pow f n) = try (Pow (go f) n)
    go e = try e
    try e = case rule e of
      Nothing -> e
      Just e' -> e'

-- >>> derive (X :*: X)
-- Const 1 :*: X :+: X :*: Const 1
-- >>> simplify (derive (X :*: X :+: Const 3))
-- X :+: X
-- >>> evalAt 3 (Pow X 2 :+: Const 1)
-- 10
-- >>> mulP [1, 1] [1, 1]
-- [1,2,1]
-- >>> evalP [1, 2, 1] 3
-- 16
-- >>> deriveP [5, 3, 2]
-- [3,4]
-- >>> composeP [0, 0, 1] [1, 1]
-- [1,2,1,0]
-- >>> toPoly (Pow (X :+: Const 1) 2)
-- [1,2,1]
-- >>> expand ((X :+: Const 1) :*: (X :+: Const 2))
-- (X :*: X :+: X :*: Const 2) :+: (Const 1 :*: X :+: Const 1 :*: Const 2)
-- >>> degree (Pow X 3 :*: X)
-- 4
-- >>> rewrite (\e -> if e == X then Just (Const 2) else Nothing) (X :+: X)
-- Const 2 :+: Const 2
