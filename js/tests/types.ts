// Compiles only if the types of the package are exactly these, and each line below @ts-expect-error is rejected.
// tests/calls.test.mjs checks those of the functions.
import base62, { Alphabet, Base62Error, type EncodedString, type Integer, type Uuid } from 'base62-proved';

type Same<A, B> = (<T>() => T extends A ? 1 : 2) extends <T>() => T extends B ? 1 : 2 ? true : false;
type AllOf<T extends true[]> = T;
export type Checks = AllOf<
  [
    Same<Integer, number | bigint>,
    Same<EncodedString, string | Uint8Array>,
    Same<Uuid, string | Uint8Array>,
    Same<typeof base62.Alphabet, typeof Alphabet>,
    Same<ConstructorParameters<typeof Alphabet>, [string]>,
    Same<Pick<Alphabet, keyof Alphabet>, { readonly characters: string }>,
    Same<Omit<typeof Alphabet, 'prototype'>, { readonly standard: Alphabet; readonly alternative: Alphabet }>,
    Base62Error extends RangeError ? true : false,
    Same<InstanceType<typeof Base62Error>, Base62Error>,
    Same<Omit<Base62Error, keyof RangeError>, { code: Base62Error['code']; byte?: number; index?: number }>,
  ]
>;

// @ts-expect-error
base62.encode(5, { characters: '0123' });
// @ts-expect-error
new Base62Error('5');
