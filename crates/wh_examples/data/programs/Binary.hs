-- | Numbers in binary, the lowest digit first, without zeros at the end.
module Binary
  ( Bit (..)
  , Binary
  , increment
  , decrement
  , add
  , addCarry
  , double
  , multiply
  , fromNat
  , toNat
  , normal
  , compareBits
  , subtract'
  , divide
  , gcdBits
  , parity
  , bits
  , shiftBy
  , xorBits
  , gray
  ) where

import Prelude hiding (length)
import Nat

data Bit = O | I
  deriving (Eq, Ord, Show)

type Binary = [Bit]

increment :: Binary -> Binary
increment [] = [I]
increment (O : bs) = I : bs
increment (I : bs) = O : increment bs

-- | One less; of zero it is zero.
decrement :: Binary -> Binary
decrement [] = []
decrement [I] = []
decrement (I : bs) = O : bs
decrement (O : bs) = I : decrement bs

add :: Binary -> Binary -> Binary
add = addCarry O

addCarry :: Bit -> Binary -> Binary -> Binary
addCarry O [] bs = bs
addCarry O as [] = as
addCarry I [] bs = increment bs
addCarry I as [] = increment as
addCarry c (a : as) (b : bs) = low : addCarry high as bs
  where
    (high, low) = addBits c a b

addBits :: Bit -> Bit -> Bit -> (Bit, Bit)
addBits O O c = (O, c)
addBits O I O = (O, I)
addBits O I I = (I, O)
addBits I O O = (O, I)
addBits I O I = (I, O)
addBits I I c = (I, c)

double :: Binary -> Binary
double [] = []
double bs = O : bs

multiply :: Binary -> Binary -> Binary
multiply [] _ = []
multiply (O : as) bs = double (multiply as bs)
multiply (I : as) bs = add bs (double (multiply as bs))

fromNat :: Nat -> Binary
fromNat Zero = []
fromNat (Succ n) = increment (fromNat n)

toNat :: Binary -> Nat
toNat = foldr (\b n -> (if b == I then 1 else 0) + 2 * n) 0

-- | Without zeros at the end.
normal :: Binary -> Binary
normal = foldr put []
  where
    put O [] = []
    put b bs = b : bs

-- | The last digit that differs decides.
compareBits :: Binary -> Binary -> Ordering
compareBits [] [] = EQ
compareBits [] _ = LT
compareBits _ [] = GT
compareBits (a : as) (b : bs) = case compareBits as bs of
  EQ -> compare a b
  other -> other

-- | The difference, where the first number is not the smaller one.
subtract' :: Binary -> Binary -> Binary
subtract' as [] = as
subtract' [] _ = []
subtract' (O : as) (O : bs) = double (subtract' as bs)
subtract' (I : as) (I : bs) = double (subtract' as bs)
subtract' (I : as) (O : bs) = I : subtract' as bs
subtract' (O : as) (I : bs) = I : subtract' (decrement as) bs

-- | Quotient and rest, by the digits of the first number.
divide :: Binary -> Binary -> (Binary, Binary)
divide [] _ = ([], [])
divide (a : as) d
  | compareBits rest' d == LT = (double q, rest')
  | otherwise = (I : q, normal (subtract' rest' d))
  where
    (q, rest) = divide as d
    rest' = normal (a : rest)

gcdBits :: Nat -> Binary -> Binary -> Binary
gcdBits Zero a _ = a
gcdBits (Succ fuel) a b = case normal b of
  [] -> a
  b' -> gcdBits fuel b' (snd (divide a b'))

parity :: Binary -> Bool
parity = foldr (\b p -> if b == I then not p else p) False

bits :: Binary -> Nat
bits = length . filter (== I)

shiftBy :: Nat -> Binary -> Binary
shiftBy 0 bs = bs
shiftBy n bs = double (shiftBy (n - 1) bs)

xorBits :: Binary -> Binary -> Binary
xorBits [] bs = bs
xorBits as [] = as
xorBits (a : as) (b : bs) = (if a == b then O else I) : xorBits as bs

-- | The Gray code: each digit against the next one.
gray :: Binary -> Binary
gray (a : rest@(b : _)) = (if a == b then O else I) : gray rest
gray bs = bs

-- >>> fromNat 6
-- [O,I,I]
-- >>> toNat (add [I, I] [I, O, I])
-- 8
-- >>> toNat (multiply (fromNat 3) (fromNat 5))
-- 15
-- >>> decrement [O, O, I]
-- [I,I]
-- >>> compareBits [I, O, I] [O, I, I]
-- LT
-- >>> toNat (subtract' (fromNat 9) (fromNat 3))
-- 6
-- >>> divide (fromNat 17) (fromNat 5)
-- ([I,I],[O,I])
-- >>> toNat (gcdBits 10 (fromNat 12) (fromNat 18))
-- 6
-- >>> gray [I, O, I]
-- [I,I,I]
-- >>> shiftBy 2 [I]
-- [O,O,I]
-- >>> bits [I, O, I]
-- 2
