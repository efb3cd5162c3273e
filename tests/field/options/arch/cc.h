/* lwIP's own defaults fit the compiler. */
