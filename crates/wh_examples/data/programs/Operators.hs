-- | Operators with fixities of their own: logic, pipelines, vectors and sets.
module Operators
  ( (|>)
  , (<+>)
  , (<**>)
  , (==>)
  , (<=>)
  , (/\)
  , (\/)
  , (!!!)
  , (+++)
  , (\\\)
  , Formula (..)
  , holds
  , tautology
  , negateAll
  , dot
  , pipeline
  , Expr (..)
  , simplify
  ) where

import Prelude hiding (replicate)
import Nat

infixl 1 |>
infixr 1 ==>
infix 1 <=>
infixr 2 \/
infixr 3 /\
infixl 6 <+>
infixl 7 <**>
infixl 9 !!!
infixr 5 +++
infix 5 \\\

(|>) :: a -> (a -> b) -> b
x |> f = f x

(==>) :: Bool -> Bool -> Bool
False ==> _ = True
True ==> b = b

(<=>) :: Bool -> Bool -> Bool
a <=> b = (a ==> b) && (b ==> a)

-- | Sums and products of vectors, place by place.
(<+>), (<**>) :: [Nat] -> [Nat] -> [Nat]
(<+>) = zipWith (+)
(<**>) = zipWith (*)

(!!!) :: [a] -> Nat -> Maybe a
[] !!! _ = Nothing
(x : xs) !!! n
  | n == 0 = Just x
  | otherwise = xs !!! (n - 1)

-- | The union of lists in which no member stands twice.
(+++) :: Eq a => [a] -> [a] -> [a]
[] +++ ys = ys
(x : xs) +++ ys
  | x `elem` ys = xs +++ ys
  | otherwise = x : (xs +++ ys)

(\\\) :: Eq a => [a] -> [a] -> [a]
xs \\\ ys = filter (`notElem` ys) xs

data Formula
  = Atom Nat
  | Not Formula
  | Formula :/\ Formula
  | Formula :\/ Formula
  | Formula :=> Formula
  deriving (Eq, Show)

infixr 3 :/\
infixr 2 :\/
infixr 1 :=>

(/\), (\/) :: Formula -> Formula -> Formula
(/\) = (:/\)
(\/) = (:\/)

holds :: [Nat] -> Formula -> Bool
holds true formula = case formula of
  Atom n -> n `elem` true
  Not f -> not (holds true f)
  f :/\ g -> holds true f && holds true g
  f :\/ g -> holds true f || holds true g
  f :=> g -> holds true f ==> holds true g

atoms :: Formula -> [Nat]
atoms (Atom n) = [n]
atoms (Not f) = atoms f
atoms (f :/\ g) = atoms f +++ atoms g
atoms (f :\/ g) = atoms f +++ atoms g
atoms (f :=> g) = atoms f +++ atoms g

subsets :: [a] -> [[a]]
subsets [] = [[]]
subsets (x : xs) = subsets xs ++ map (x :) (subsets xs)

tautology :: Formula -> Bool
tautology f = all (`holds` f) (subsets (atoms f))

-- | Negations at the atoms alone.
negateAll :: Formula -> Formula
negateAll (f :/\ g) = negateAll f \/ negateAll g
negateAll (f :\/ g) = negateAll f /\ negateAll g
negateAll (f :=> g) = f /\ negateAll g
negateAll (Not f) = f
negateAll f = Not f

dot :: [Nat] -> [Nat] -> Nat
dot v w = v <**> w |> foldr (+) 0

pipeline :: [Nat] -> [Nat]
pipeline list = list |> filter (> 1) |> map (* 2) |> reverse

data Expr = X | Num Nat | Expr :+ Expr | Expr :* Expr
  deriving (Eq, Show)

infixl 6 :+
infixl 7 :*

simplify :: Expr -> Expr
simplify (a :+ b) = case (simplify a, simplify b) of
  (Num 0, e) -> e
  (e, Num 0) -> e
  (Num m, Num n) -> Num (m + n)
  (d, e) -> d :+ e
simplify (a :* b) = case (simplify a, simplify b) of
  (Num 0, _) -> Num 0
  (_, Num 0) -> Num 0
  (Num 1, e) -> e
  (e, Num 1) -> e
  (d, e) -> d :* e
simplify e = e

-- >>> [1, 2] <+> [3, 4] <**> [2, 2]
-- [7,10]
-- >>> [5, 6, 7 :: Nat] !!! 1
-- Just 6
-- >>> [1, 2] +++ [2, 3] +++ [3, 4 :: Nat]
-- [1,2,3,4]
-- >>> [1, 2, 3] \\\ [2 :: Nat]
-- [1,3]
-- >>> True ==> False ==> True
-- True
-- >>> True <=> False
-- False
-- >>> tautology (Atom 0 :=> Atom 1 :\/ Atom 0)
-- True
-- >>> tautology (Atom 0 :\/ Atom 1)
-- False
-- >>> negateAll (Atom 0 :=> Atom 1 :/\ Atom 2)
-- Atom 0 :/\ (Not (Atom 1) :\/ Not (Atom 2))
-- >>> dot [1, 2] [3, 4]
-- 11
-- >>> pipeline [1, 2, 3]
-- [6,4]
-- >>> simplify (Num 0 :+ X :* Num 1 :+ Num 2 :* Num 0)
-- X
