/** Exact decimal numbers, as they are written in files: 1.50 keeps its two digits. */

const WRITTEN = /^([+-]?)(\d+\.?\d*|\.\d+)(?:[eE]([+-]?\d+))?$/;
// a number with a longer exponent is none of metres, and would fill the memory
const MOST_EXPONENT = 9999;

/** A decimal number: its sign, its digits without the point, and how many of them are behind it. */
export class Decimal {
    /** @param {boolean} isNegative @param {bigint} digits @param {number} scale */
    constructor(isNegative, digits, scale) {
        this.isNegative = isNegative;
        this.digits = digits;
        this.scale = scale;
    }

    /**
     * The number that a text is; null where it is none, or none that is finite.
     * @param {string} text
     * @returns {Decimal | null}
     */
    static of(text) {
        const found = WRITTEN.exec(text.trim().replaceAll("_", ""));
        const exponent = Number(found?.[3] ?? 0);
        if (!found || Math.abs(exponent) > MOST_EXPONENT) {
            return null;
        }
        const [whole, part = ""] = found[2].split(".");
        const digits = BigInt(whole + part), scale = part.length - exponent;
        return new Decimal(found[1] === "-", scale < 0 ? digits * 10n ** BigInt(-scale) : digits, Math.max(scale, 0));
    }

    /** @param {number} scale @returns {bigint} the digits with their sign, with so many behind the point */
    scaled(scale) {
        const digits = this.digits * 10n ** BigInt(scale - this.scale);
        return this.isNegative ? -digits : digits;
    }

    /** @param {Decimal} other @returns {Decimal} */
    plus(other) {
        const scale = Math.max(this.scale, other.scale);
        const sum = this.scaled(scale) + other.scaled(scale);
        const isNegative = sum < 0n || sum === 0n && this.isNegative && other.isNegative;
        return new Decimal(isNegative, sum < 0n ? -sum : sum, scale);
    }

    /** @param {Decimal} other @returns {Decimal} */
    minus(other) {
        return this.plus(other.negated());
    }

    /** @returns {Decimal} */
    negated() {
        return new Decimal(!this.isNegative, this.digits, this.scale);
    }

    /** @returns {Decimal} the number without its sign */
    absolute() {
        return new Decimal(false, this.digits, this.scale);
    }

    /**
     * Less than nothing, nothing or more, as this number is less than the other, equal to it or greater.
     * @param {Decimal} other
     * @returns {number}
     */
    compare(other) {
        const scale = Math.max(this.scale, other.scale);
        const one = this.scaled(scale), two = other.scaled(scale);
        return one < two ? -1 : one > two ? 1 : 0;
    }

    /** @param {Decimal} other @returns {boolean} */
    equals(other) {
        return this.compare(other) === 0;
    }

    /** @returns {boolean} */
    isZero() {
        return this.digits === 0n;
    }

    /**
     * The number with so many digits behind the point; a half goes to the even digit.
     * @param {number} count
     * @returns {Decimal}
     */
    rounded(count) {
        if (count >= this.scale) {
            return new Decimal(this.isNegative, this.digits * 10n ** BigInt(count - this.scale), count);
        }
        const part = 10n ** BigInt(this.scale - count);
        const whole = this.digits / part, twice = this.digits % part * 2n;
        const isUp = twice > part || twice === part && whole % 2n === 1n;
        return new Decimal(this.isNegative, isUp ? whole + 1n : whole, count);
    }

    /** @param {number} count @returns {string} */
    toFixed(count) {
        return this.rounded(count).toString();
    }

    /** @returns {number} the nearest number that isn't exact */
    toNumber() {
        return Number(this.toString());
    }

    /** @returns {string} all digits, without an exponent */
    toString() {
        const digits = this.digits.toString().padStart(this.scale + 1, "0");
        const whole = digits.slice(0, digits.length - this.scale);
        return (this.isNegative ? "-" : "") + whole + (this.scale ? `.${digits.slice(-this.scale)}` : "");
    }
}

export const ZERO = new Decimal(false, 0n, 0);
