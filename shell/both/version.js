/** Which version this is. */
export const VERSION = "0.9";
