program nothing;
begin
end.
