int level = 4, share;

/* the more urgent task empties the tank */
__task(2) void drain(void) { level = 0; }

/* in the background: what one litre is of all, in percent */
__task(1) void show(void) { if (level != 0) share = 100 / level; }
