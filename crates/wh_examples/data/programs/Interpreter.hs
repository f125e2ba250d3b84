-- | An interpreter of a small language with variables, functions and environments.
module Interpreter
  ( Name
  , Expr (..)
  , Value (..)
  , Env
  , bind
  , find
  , eval
  , apply
  , run
  , freeVars
  , closed
  , count
  , rename
  , constants
  ) where

import Nat

type Name = Nat

data Expr
  = Var Name
  | Const Nat
  | Plus Expr Expr
  | If Expr Expr Expr
  | Let Name Expr Expr
  | Lam Name Expr
  | App Expr Expr
  deriving (Eq, Show)

data Value
  = Number Nat
  | Closure Name Expr Env
  deriving (Eq, Show)

type Env = [(Name, Value)]

bind :: Name -> Value -> Env -> Env
bind x v env = (x, v) : env

find :: Name -> Env -> Maybe Value
find _ [] = Nothing
find x ((y, v) : rest)
  | x == y = Just v
  | otherwise = find x rest

-- | The value of an expression; the first argument bounds how deep calls may nest.
eval :: Nat -> Env -> Expr -> Maybe Value
eval _ env (Var x) = find x env
eval _ _ (Const n) = Just (Number n)
eval fuel env (Plus a b) = case (eval fuel env a, eval fuel env b) of
  (Just (Number m), Just (Number n)) -> Just (Number (m + n))
  _ -> Nothing
eval fuel env (If c t e) = case eval fuel env c of
  Just (Number 0) -> eval fuel env e
  Just (Number _) -> eval fuel env t
  _ -> Nothing
eval fuel env (Let x e body) = case eval fuel env e of
  Nothing -> Nothing
  Just v -> eval fuel (bind x v env) body
eval _ env (Lam x body) = Just (Closure x body env)
eval fuel env (App f a) = case eval fuel env f of
  Nothing -> Nothing
  Just g -> case eval fuel env a of
    Nothing -> Nothing
    Just v -> apply fuel g v

apply :: Nat -> Value -> Value -> Maybe Value
apply (Succ fuel) (Closure x body env) v = eval fuel (bind x v env) body
apply _ _ _ = Nothing

run :: Expr -> Maybe Value
run = eval 10 []

freeVars :: Expr -> [Name]
freeVars (Var x) = [x]
freeVars (Const _) = []
freeVars (Plus a b) = freeVars a ++ freeVars b
freeVars (If c t e) = freeVars c ++ freeVars t ++ freeVars e
freeVars (Let x e body) = freeVars e ++ filter (/= x) (freeVars body)
freeVars (Lam x body) = filter (/= x) (freeVars body)
freeVars (App f a) = freeVars f ++ freeVars a

closed :: Expr -> Bool
closed = null . freeVars

-- | How many expressions stand in an expression, itself counted.
count :: Expr -> Nat
count e = 1 + case e of
  Plus a b -> count a + count b
  If c t f -> count c + count t + count f
  Let _ d body -> count d + count body
  Lam _ body -> count body
  App f a -> count f + count a
  _ -> 0

rename :: (Name -> Name) -> Expr -> Expr
rename f expr = case expr of
  Var x -> Var (f x)
  Const n -> Const n
  Plus a b -> Plus (rename f a) (rename f b)
  If c t e -> If (rename f c) (rename f t) (rename f e)
  Let x e body -> Let (f x) (rename f e) (rename f body)
  Lam x body -> Lam (f x) (rename f body)
  App g a -> App (rename f g) (rename f a)

-- | Sums of two constants, and conditions on constants, are reckoned beforehand.
constants :: Expr -> Expr
constants (Plus a b) = case (constants a, constants b) of
  (Const m, Const n) -> Const (m + n)
  (a', b') -> Plus a' b'
constants (If c t e) = case constants c of
  Const 0 -> constants e
  Const _ -> constants t
  c' -> If c' (constants t) (constants e)
constants (Let x e body) = Let x (constants e) (constants body)
constants (Lam x body) = Lam x (constants body)
constants (App f a) = App (constants f) (constants a)
constants e = e

-- >>> run (App (Lam 0 (Plus (Var 0) (Const 2))) (Const 3))
-- Just (Number 5)
-- >>> run (Let 1 (Const 4) (If (Var 1) (Plus (Var 1) (Var 1)) (Const 0)))
-- Just (Number 8)
-- >>> run (Var 3)
-- Nothing
-- >>> closed (Lam 0 (Var 0))
-- True
-- >>> freeVars (Let 0 (Var 1) (Plus (Var 0) (Var 2)))
-- [1,2]
-- >>> count (Lam 0 (Plus (Var 0) (Const 2)))
-- 4
-- >>> constants (If (Plus (Const 0) (Const 1)) (Plus (Const 2) (Const 2)) (Var 0))
-- Const 4
-- >>> rename (+ 1) (Lam 0 (Var 0))
-- Lam 1 (Var 1)
