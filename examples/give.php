<?php
// Writes a few days' air as a plan, and nothing behind it. Day 5 shares the air of day 4: an R in the plan. Day 3 is missing.
$air = [1 => 9.5, 2 => 10.25, 4 => 8.75];
$air[5] = &$air[4];
file_put_contents('days.plan', serialize($air));
