-- | Arithmetic of natural numbers, from the gcd to a function of Ackermann's.
module Numbers
  ( minus
  , divide
  , modulo
  , gcd'
  , gcdBySubtraction
  , half
  , log2
  , factorial
  , fib
  , binomial
  , ackermann
  , divides
  , upTo
  , isPrime
  , primes
  , power
  , root
  , collatz
  , mcCarthy
  , sumTo
  , isPerfect
  ) where

import Prelude hiding (length)
import Nat

minus :: Nat -> Nat -> Nat
minus m Zero = m
minus Zero _ = Zero
minus (Succ m) (Succ n) = minus m n

-- | How often a number goes into another one; the divisor is one more than the second argument.
divide :: Nat -> Nat -> Nat
divide m n
  | m <= n = 0
  | otherwise = 1 + divide (m - (n + 1)) n

modulo :: Nat -> Nat -> Nat
modulo m n
  | m < n = m
  | n == 0 = 0
  | otherwise = modulo (m - n) n

gcd' :: Nat -> Nat -> Nat
gcd' m 0 = m
gcd' m n = gcd' n (m `modulo` n)

gcdBySubtraction :: Nat -> Nat -> Nat
gcdBySubtraction 0 n = n
gcdBySubtraction m 0 = m
gcdBySubtraction (Succ m) (Succ n)
  | m <= n = gcdBySubtraction (Succ m) (n - m)
  | otherwise = gcdBySubtraction (m - n) (Succ n)

half :: Nat -> Nat
half (Succ (Succ n)) = Succ (half n)
half _ = Zero

log2 :: Nat -> Nat
log2 0 = 0
log2 1 = 0
log2 n = 1 + log2 (half n)

factorial :: Nat -> Nat
factorial 0 = 1
factorial n = n * factorial (n - 1)

fib :: Nat -> Nat
fib n
  | n < 2 = n
  | otherwise = fib (n - 1) + fib (n - 2)

binomial :: Nat -> Nat -> Nat
binomial _ 0 = 1
binomial 0 _ = 0
binomial (Succ n) (Succ k) = binomial n k + binomial n (Succ k)

ackermann :: Nat -> Nat -> Nat
ackermann 0 n = n + 1
ackermann m 0 = ackermann (m - 1) 1
ackermann m n = ackermann (m - 1) (ackermann m (n - 1))

divides :: Nat -> Nat -> Bool
divides d n = modulo n d == 0

upTo :: Nat -> Nat -> [Nat]
upTo from to
  | from > to = []
  | otherwise = from : upTo (from + 1) to

isPrime :: Nat -> Bool
isPrime n = n >= 2 && not (any (`divides` n) (upTo 2 (n - 1)))

-- | The sieve of Eratosthenes on the numbers up to a bound.
primes :: Nat -> [Nat]
primes n = sieve (upTo 2 n)
  where
    sieve [] = []
    sieve (p : xs) = p : sieve (filter (\x -> not (p `divides` x)) xs)

power :: Nat -> Nat -> Nat
power _ Zero = 1
power m (Succ n) = m * power m n

-- | The greatest number whose square is not above the given one.
root :: Nat -> Nat
root n = search n
  where
    search 0 = 0
    search k
      | k * k <= n = k
      | otherwise = search (k - 1)

-- | How many steps lead to one. Nobody knows whether this ends for all numbers.
collatz :: Nat -> Nat
collatz 0 = 0
collatz 1 = 0
collatz n
  | 2 `divides` n = 1 + collatz (half n)
  | otherwise = 1 + collatz (3 * n + 1)

-- | McCarthy's function, with 5 in place of 100.
mcCarthy :: Nat -> Nat
mcCarthy n
  | n > 5 = n - 1
  | otherwise = mcCarthy (mcCarthy (n + 2))

sumTo :: Nat -> Nat
sumTo n = go 0 n
  where
    go total 0 = total
    go total k = go (total + k) (k - 1)

isPerfect :: Nat -> Bool
isPerfect n = foldr (+) 0 (filter (`divides` n) (upTo 1 (n - 1))) == n

-- >>> map (divide 17) [0, 1, 4]
-- [17,8,3]
-- >>> modulo 17 5
-- 2
-- >>> gcd' 12 18
-- 6
-- >>> gcdBySubtraction 12 18
-- 6
-- >>> map log2 [1, 2, 7, 8]
-- [0,1,2,3]
-- >>> map fib [0, 1, 6]
-- [0,1,8]
-- >>> binomial 4 2
-- 6
-- >>> ackermann 2 2
-- 7
-- >>> primes 12
-- [2,3,5,7,11]
-- >>> isPrime 9
-- False
-- >>> root 10
-- 3
-- >>> collatz 6
-- 8
-- >>> mcCarthy 2
-- 5
-- >>> sumTo 4
-- 10
-- >>> isPerfect 6
-- True
