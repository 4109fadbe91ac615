<?php
// Changes a plan that others may edit at the same time, the command among them.

// Opens the file that has this name, and locks it. While the lock was waited for, the command may have put another
// file in its place: then this one has no name any more, and what is written to it is lost.
function open_locked(string $name)
{
    while ($file = fopen($name, 'r+')) {
        if (!flock($file, LOCK_EX)) {
            break;
        }
        clearstatcache();
        $named = @stat($name);
        $opened = fstat($file);
        if ($named && [$named['dev'], $named['ino']] === [$opened['dev'], $opened['ino']]) {
            return $file;
        }
        fclose($file);
    }
    exit("$name cannot be locked\n");
}

$name = $argv[1];
$file = open_locked($name);
$air = unserialize(stream_get_contents($file), ['allowed_classes' => false]);
if (!is_array($air)) {
    exit("$name holds no array\n");
}
$air[1] += 0.5;
$text = serialize($air);
// Written beside it, and renamed while the lock is held: nobody ever reads a part.
$new = fopen("$name.new", 'w');
$written = $new && fwrite($new, $text) === strlen($text) && fsync($new);
if (!$written || !chmod("$name.new", fstat($file)['mode'] & 0777) || !rename("$name.new", $name)) {
    exit("$name cannot be replaced\n");
}
echo "day 1 has $air[1] now\n";
