-- | Unification of first-order terms by a list of equations and a substitution.
module Unify
  ( Term (..)
  , Subst
  , occurs
  , look
  , apply
  , single
  , compose
  , solve
  , unify
  , vars
  , match
  , rename
  , isInstance
  , ground
  , depth
  ) where

import Nat

-- | Variables and symbols have numbers.
data Term = Var Nat | Fun Nat [Term]
  deriving (Eq, Show)

type Subst = [(Nat, Term)]

occurs :: Nat -> Term -> Bool
occurs x (Var y) = x == y
occurs x (Fun _ ts) = any (occurs x) ts

look :: Nat -> Subst -> Maybe Term
look _ [] = Nothing
look x ((y, t) : rest)
  | x == y = Just t
  | otherwise = look x rest

apply :: Subst -> Term -> Term
apply s (Var x) = maybe (Var x) id (look x s)
apply s (Fun f ts) = Fun f (map (apply s) ts)

single :: Nat -> Term -> Subst
single x t = [(x, t)]

-- | First the second substitution, and then the first one.
compose :: Subst -> Subst -> Subst
compose s2 s1 = map (\(x, t) -> (x, apply s2 t)) s1 ++ s2

-- | Solves the equations, those first that come first; the answer so far is the last argument.
solve :: Nat -> [(Term, Term)] -> Subst -> Maybe Subst
solve 0 _ _ = Nothing
solve _ [] s = Just s
solve (Succ fuel) ((l, r) : rest) s = case (l, r) of
  (Var x, Var y) | x == y -> solve fuel rest s
  (Var x, t) -> eliminate x t
  (t, Var x) -> eliminate x t
  (Fun f ts, Fun g us)
    | f == g, Just new <- pair ts us -> solve fuel (new ++ rest) s
    | otherwise -> Nothing
  where
    eliminate x t
      | occurs x t = Nothing
      | otherwise = solve fuel (map both rest) (compose one s)
      where
        one = single x t
        both (a, b) = (apply one a, apply one b)

-- | The members of two lists in pairs, if there are equally many.
pair :: [a] -> [b] -> Maybe [(a, b)]
pair [] [] = Just []
pair (a : as) (b : bs) = case pair as bs of
  Nothing -> Nothing
  Just rest -> Just ((a, b) : rest)
pair _ _ = Nothing

unify :: Term -> Term -> Maybe Subst
unify t u = solve 20 [(t, u)] []

vars :: Term -> [Nat]
vars (Var x) = [x]
vars (Fun _ ts) = concatMap vars ts

-- | A substitution that makes the second term of the first one, begun with what is known already.
match :: Term -> Term -> Subst -> Maybe Subst
match (Var x) t s = case look x s of
  Nothing -> Just ((x, t) : s)
  Just u
    | u == t -> Just s
    | otherwise -> Nothing
match (Fun f ts) (Fun g us) s
  | f == g = matchAll ts us s
match _ _ _ = Nothing

matchAll :: [Term] -> [Term] -> Subst -> Maybe Subst
matchAll [] [] s = Just s
matchAll (t : ts) (u : us) s = case match t u s of
  Nothing -> Nothing
  Just s' -> matchAll ts us s'
matchAll _ _ _ = Nothing

rename :: (Nat -> Nat) -> Term -> Term
rename f (Var x) = Var (f x)
rename f (Fun g ts) = Fun g (map (rename f) ts)

isInstance :: Term -> Term -> Bool
isInstance t u = maybe False (const True) (match u t [])

ground :: Term -> Bool
ground (Var _) = False
ground (Fun _ ts) = all ground ts

depth :: Term -> Nat
depth (Var _) = 0
depth (Fun _ ts) = 1 + foldr (\t n -> max (depth t) n) 0 ts

-- >>> unify (Fun 0 [Var 1, Fun 2 []]) (Fun 0 [Fun 3 [], Var 4])
-- Just [(1,Fun 3 []),(4,Fun 2 [])]
-- >>> unify (Var 1) (Fun 0 [Var 1])
-- Nothing
-- >>> unify (Fun 0 [Var 1, Var 1]) (Fun 0 [Fun 1 [], Fun 2 []])
-- Nothing
-- >>> match (Fun 0 [Var 1, Var 2]) (Fun 0 [Fun 1 [], Fun 2 []]) []
-- Just [(2,Fun 2 []),(1,Fun 1 [])]
-- >>> apply [(1, Fun 2 [])] (Fun 0 [Var 1, Var 3])
-- Fun 0 [Fun 2 [],Var 3]
-- >>> isInstance (Fun 0 [Fun 1 []]) (Fun 0 [Var 5])
-- True
-- >>> ground (Fun 0 [Fun 1 [], Var 2])
-- False
-- >>> depth (Fun 0 [Fun 1 [], Fun 2 [Var 0]])
-- 2
-- >>> vars (Fun 0 [Var 1, Fun 2 [Var 3]])
-- [1,3]
