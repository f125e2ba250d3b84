-- | A parser of sums and products with parentheses, by parsers that may fail and alternatives of them.
module Parser
  ( Token (..)
  , Expr (..)
  , item
  , token
  , number
  , orElse
  , andThen
  , mapP
  , many
  , chain
  , expr
  , parse
  , eval
  , flatten
  , calculate
  ) where

import Nat

data Token = Num Nat | Plus | Times | Open | Close
  deriving (Eq, Show)

data Expr = Lit Nat | Add Expr Expr | Mul Expr Expr
  deriving (Eq, Show)

-- | What a parser makes of the front of its tokens, with the tokens that are left.
type Parser a = [Token] -> Maybe (a, [Token])

item :: Parser Token
item [] = Nothing
item (t : ts) = Just (t, ts)

succeed :: a -> Parser a
succeed x ts = Just (x, ts)

token :: Token -> Parser Token
token t ts = case ts of
  (u : rest) | t == u -> Just (u, rest)
  _ -> Nothing

number :: Parser Nat
number (Num n : ts) = Just (n, ts)
number _ = Nothing

-- | The second parser is tried where the first one fails.
orElse :: Parser a -> Parser a -> Parser a
orElse p q ts = case p ts of
  Nothing -> q ts
  found -> found

andThen :: Parser a -> (a -> Parser b) -> Parser b
andThen p f ts = case p ts of
  Nothing -> Nothing
  Just (x, rest) -> f x rest

mapP :: (a -> b) -> Parser a -> Parser b
mapP f p = p `andThen` \x -> succeed (f x)

-- | As often as there are tokens at most, so that a parser that takes none does not go on for ever.
many :: Parser a -> Parser [a]
many p ts = go ts ts
  where
    go [] rest = Just ([], rest)
    go (_ : fuel) rest = case p rest of
      Nothing -> Just ([], rest)
      Just (x, rest') -> case go fuel rest' of
        Nothing -> Nothing
        Just (xs, rest'') -> Just (x : xs, rest'')

-- | Parts with a separator between them, grouped to the left.
chain :: Token -> (a -> a -> a) -> Parser a -> Parser a
chain sep f p =
  p `andThen` \x ->
    mapP (foldl f x) (many (token sep `andThen` \_ -> p))

-- | An expression; the number bounds how deep parentheses may nest.
expr :: Nat -> Parser Expr
expr depth = chain Plus Add (term depth)

term :: Nat -> Parser Expr
term depth = chain Times Mul (factor depth)

factor :: Nat -> Parser Expr
factor 0 = mapP Lit number
factor (Succ n) = mapP Lit number `orElse` parens
  where
    parens =
      token Open `andThen` \_ ->
        expr n `andThen` \e ->
          mapP (const e) (token Close)

parse :: [Token] -> Maybe Expr
parse ts = case expr 5 ts of
  Just (e, []) -> Just e
  _ -> Nothing

eval :: Expr -> Nat
eval (Lit n) = n
eval (Add a b) = eval a + eval b
eval (Mul a b) = eval a * eval b

flatten :: Expr -> [Token]
flatten (Lit n) = [Num n]
flatten (Add a b) = flatten a ++ [Plus] ++ flatten b
flatten (Mul a b) = wrap a ++ [Times] ++ wrap b
  where
    wrap e@(Add _ _) = [Open] ++ flatten e ++ [Close]
    wrap e = flatten e

calculate :: [Token] -> Maybe Nat
calculate ts = case parse ts of
  Nothing -> Nothing
  Just e -> Just (eval e)

-- >>> parse [Num 1, Plus, Num 2, Times, Num 3]
-- Just (Add (Lit 1) (Mul (Lit 2) (Lit 3)))
-- >>> calculate [Num 1, Plus, Num 2, Times, Num 3]
-- Just 7
-- >>> calculate [Open, Num 1, Plus, Num 2, Close, Times, Num 3]
-- Just 9
-- >>> parse [Num 1, Plus]
-- Nothing
-- >>> flatten (Mul (Add (Lit 1) (Lit 2)) (Lit 3))
-- [Open,Num 1,Plus,Num 2,Close,Times,Num 3]
-- >>> many number [Num 1, Num 2, Plus]
-- Just ([1,2],[Plus])
-- >>> orElse (token Open) item [Close, Open]
-- Just (Close,[Open])
