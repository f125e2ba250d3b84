-- | Types of the simply typed lambda calculus with numbers, truth values and pairs, by de Bruijn indices.
module TypeCheck
  ( Type (..)
  , Term (..)
  , Context
  , nth
  , typeOf
  , check
  , wellTyped
  , shift
  , subst
  , isValue
  , step
  , evalTo
  ) where

import Nat

data Type = TNat | TBool | Type :-> Type | Pair Type Type
  deriving (Eq, Show)

infixr 5 :->

data Term
  = Var Nat
  | Lam Type Term
  | App Term Term
  | Lit Nat
  | Truth Bool
  | Inc Term
  | IsZero Term
  | Cond Term Term Term
  | MkPair Term Term
  | First Term
  | Second Term
  deriving (Eq, Show)

type Context = [Type]

nth :: [a] -> Nat -> Maybe a
nth [] _ = Nothing
nth (x : _) Zero = Just x
nth (_ : xs) (Succ n) = nth xs n

typeOf :: Context -> Term -> Maybe Type
typeOf ctx (Var n) = nth ctx n
typeOf ctx (Lam t body) = case typeOf (t : ctx) body of
  Just u -> Just (t :-> u)
  Nothing -> Nothing
typeOf ctx (App f a)
  | Just (t :-> u) <- typeOf ctx f, check ctx a t = Just u
  | otherwise = Nothing
typeOf _ (Lit _) = Just TNat
typeOf _ (Truth _) = Just TBool
typeOf ctx (Inc e) = if check ctx e TNat then Just TNat else Nothing
typeOf ctx (IsZero e) = if check ctx e TNat then Just TBool else Nothing
typeOf ctx (Cond c t e)
  | check ctx c TBool, Just u <- typeOf ctx t, check ctx e u = Just u
  | otherwise = Nothing
typeOf ctx (MkPair a b) = case (typeOf ctx a, typeOf ctx b) of
  (Just t, Just u) -> Just (Pair t u)
  _ -> Nothing
typeOf ctx (First e) = case typeOf ctx e of
  Just (Pair t _) -> Just t
  _ -> Nothing
typeOf ctx (Second e) = case typeOf ctx e of
  Just (Pair _ u) -> Just u
  _ -> Nothing

check :: Context -> Term -> Type -> Bool
check ctx e t = typeOf ctx e == Just t

wellTyped :: Term -> Bool
wellTyped e = maybe False (const True) (typeOf [] e)

-- | Raises the indices that lead out of so many binders.
shift :: Nat -> Term -> Term
shift k (Var n) = Var (if n < k then n else n + 1)
shift k (Lam t e) = Lam t (shift (k + 1) e)
shift k (App f a) = App (shift k f) (shift k a)
shift k (Inc e) = Inc (shift k e)
shift k (IsZero e) = IsZero (shift k e)
shift k (Cond c t e) = Cond (shift k c) (shift k t) (shift k e)
shift k (MkPair a b) = MkPair (shift k a) (shift k b)
shift k (First e) = First (shift k e)
shift k (Second e) = Second (shift k e)
shift _ e = e

-- | Puts a term for an index.
subst :: Nat -> Term -> Term -> Term
subst k s (Var n) = case compare n k of
  LT -> Var n
  EQ -> s
  GT -> Var (n - 1)
subst k s (Lam t e) = Lam t (subst (k + 1) (shift 0 s) e)
subst k s (App f a) = App (subst k s f) (subst k s a)
subst k s (Inc e) = Inc (subst k s e)
subst k s (IsZero e) = IsZero (subst k s e)
subst k s (Cond c t e) = Cond (subst k s c) (subst k s t) (subst k s e)
subst k s (MkPair a b) = MkPair (subst k s a) (subst k s b)
subst k s (First e) = First (subst k s e)
subst k s (Second e) = Second (subst k s e)
subst _ _ e = e

isValue :: Term -> Bool
isValue (Lam _ _) = True
isValue (Lit _) = True
isValue (Truth _) = True
isValue (MkPair a b) = isValue a && isValue b
isValue _ = False

-- | One step of a call by name.
step :: Term -> Maybe Term
step (App (Lam _ e) a) = Just (subst 0 a e)
step (App f a) = maybe Nothing (\f' -> Just (App f' a)) (step f)
step (Inc (Lit n)) = Just (Lit (n + 1))
step (Inc e) = fmapStep Inc e
step (IsZero (Lit n)) = Just (Truth (n == 0))
step (IsZero e) = fmapStep IsZero e
step (Cond (Truth b) t e) = Just (if b then t else e)
step (Cond c t e) = fmapStep (\c' -> Cond c' t e) c
step (First (MkPair a _)) = Just a
step (First e) = fmapStep First e
step (Second (MkPair _ b)) = Just b
step (Second e) = fmapStep Second e
step _ = Nothing

fmapStep :: (Term -> Term) -> Term -> Maybe Term
fmapStep f e = case step e of
  Nothing -> Nothing
  Just e' -> Just (f e')

-- | As many steps as there are, but no more than the number says.
evalTo :: Nat -> Term -> Term
evalTo 0 e = e
evalTo n e = case step e of
  Nothing -> e
  Just e' -> evalTo (n - 1) e'

-- >>> typeOf [] (Lam TNat (Inc (Var 0)))
-- Just (TNat :-> TNat)
-- >>> typeOf [] (App (Lam TNat (Var 0)) (Truth True))
-- Nothing
-- >>> wellTyped (Cond (IsZero (Lit 0)) (Lit 1) (Lit 2))
-- True
-- >>> evalTo 5 (App (Lam TNat (Inc (Inc (Var 0)))) (Lit 3))
-- Lit 5
-- >>> evalTo 9 (First (Cond (IsZero (Lit 0)) (MkPair (Lit 1) (Lit 2)) (MkPair (Lit 3) (Lit 4))))
-- Lit 1
-- >>> shift 0 (Lam TNat (App (Var 0) (Var 1)))
-- Lam TNat (App (Var 0) (Var 2))
-- >>> subst 0 (Lit 7) (Lam TBool (App (Var 0) (Var 1)))
-- Lam TBool (App (Var 0) (Lit 7))
