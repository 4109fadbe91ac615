<?php
// Takes the plan back, and no object with it.
$air = unserialize(file_get_contents('days.plan'), ['allowed_classes' => false]);
if (!is_array($air)) {
    exit("days.plan holds no array\n");
}
// Days that share their air share it still: a change of one is a change of both.
$air[4] = 12.5;
foreach ($air as $day => $value) {
    echo "$day: $value\n";
}
